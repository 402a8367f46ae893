/* Judges messages on a sign, or shows their pages: a host in C.
 *
 *   judge SIGN_FILE                the verdict on each line of standard input, as `signctl check` writes it
 *   judge --draw CLOCK SIGN_FILE   the page at a clock, in tenths of a second, as `signctl show --clock CLOCK --colour 1` draws it
 *   judge --colours SIGN_FILE      the page at clock 0, with the digit of its colour for each pixel
 *
 * A message is a line. It ends with a line feed, and a carriage return before that is dropped. All are judged in one call. */
#include "latsefur.h"

#include <errno.h>
#include <stdio.h>
#include <stdlib.h>
#include <string.h>

/* As many octets of a message are judged as signctl judges. */
enum { MAX_TEXT = 4096 };

typedef enum { CHECK, DRAW, COLOURS } mode;

/* Octets that this program owns. There is always one more than `length`, so they are never NULL. */
typedef struct {
    uint8_t *octets;
    size_t length;
} octets;

static void fail(const char *why) {
    fprintf(stderr, "judge: %s\n", why);
    exit(1);
}

/* Ends the program if a call failed that should not. */
static void expect_done(uint8_t outcome) {
    switch (outcome) {
    case LATSEFUR_DONE:
        return;
    case LATSEFUR_NO_MEMORY:
        fail("out of memory");
        break;
    case LATSEFUR_NO_SIGN_FILE:
        fail("the sign file can't be read");
        break;
    case LATSEFUR_SIGN_FAULT:
        fail("the sign is outside its limits");
        break;
    default:
        fail("another outcome than this program allows");
    }
}

static void *room_for(void *old, size_t count, size_t size) {
    void *room = count < SIZE_MAX / size ? realloc(old, (count + 1) * size) : NULL;
    if (!room)
        fail("out of memory");
    return room;
}

/* Reads a stream to its end. */
static octets read_all(FILE *stream) {
    octets all = {NULL, 0};
    size_t room = 4096, taken;
    do {
        room *= 2;
        all.octets = room_for(all.octets, room, 1);
        taken = fread(all.octets + all.length, 1, room - all.length, stream);
        all.length += taken;
    } while (taken > 0);
    if (ferror(stream))
        fail("the input can't be read");
    return all;
}

/* The lines of the input, which point into it. */
static latsefur_text *lines_of(octets input, size_t *count) {
    latsefur_text *lines = room_for(NULL, 0, sizeof *lines);
    size_t at = 0;
    *count = 0;
    while (at < input.length) {
        const uint8_t *line = input.octets + at;
        const uint8_t *end = memchr(line, '\n', input.length - at);
        if (!end)
            fail("the last line has no line feed");
        at += (size_t)(end - line) + 1;
        if (end > line && end[-1] == '\r')
            end--;
        lines = room_for(lines, *count + 1, sizeof *lines);
        lines[*count].octets = line;
        lines[*count].length = (size_t)(end - line);
        ++*count;
    }
    return lines;
}

/* A pixel of a plane. */
static int is_lit(const uint8_t *plane, unsigned width, unsigned column, unsigned row) {
    size_t octet = (size_t)row * ((width + 7) / 8) + column / 8;
    return plane[octet] >> (7 - column % 8) & 1;
}

/* Writes what the sign shows of a text at a clock. `picture` has room for the colours of all pixels; a plane takes no more. */
static void show(octets sign_file, latsefur_sign_facts facts, latsefur_text text, mode asked, uint64_t clock, uint8_t *picture) {
    latsefur_shown shown = {0, 0, 0};
    size_t room = LATSEFUR_COLOURS_SIZE(facts.width, facts.height);
    unsigned row, column;

    expect_done(latsefur_shown_at(sign_file.octets, sign_file.length, text.octets, text.length, clock, &shown));
    if (shown.is_on)
        printf("page %u phase %llu\n", (unsigned)shown.page, (unsigned long long)shown.phase);
    else
        printf("off\n");
    if (asked == DRAW)
        expect_done(latsefur_plane_at(sign_file.octets, sign_file.length, text.octets, text.length, clock, 1, picture, room));
    else
        expect_done(latsefur_colours_at(sign_file.octets, sign_file.length, text.octets, text.length, clock, picture, room));
    for (row = 0; row < facts.height; row++) {
        for (column = 0; column < facts.width; column++) {
            if (asked == DRAW)
                putchar(is_lit(picture, facts.width, column, row) ? '#' : '.');
            else
                putchar('0' + picture[(size_t)row * facts.width + column]);
        }
        putchar('\n');
    }
}

static void judge_all(octets sign_file, octets input, mode asked, uint64_t clock) {
    latsefur_sign_facts facts = {0, 0, 0, 0};
    size_t count, i;
    latsefur_text *lines = lines_of(input, &count);
    latsefur_verdict *verdicts = room_for(NULL, count, sizeof *verdicts);
    uint8_t *picture;

    memset(verdicts, 0, (count + 1) * sizeof *verdicts);
    expect_done(latsefur_sign(sign_file.octets, sign_file.length, &facts));
    expect_done(latsefur_check_all(sign_file.octets, sign_file.length, lines, count, verdicts, count));
    picture = room_for(NULL, LATSEFUR_COLOURS_SIZE(facts.width, facts.height), 1);
    memset(picture, 0, LATSEFUR_COLOURS_SIZE(facts.width, facts.height));
    for (i = 0; i < count; i++) {
        if (lines[i].length > MAX_TEXT)
            printf("too long\n");
        else if (verdicts[i].outcome != LATSEFUR_DONE)
            printf("error %u %llu\n", (unsigned)verdicts[i].code, (unsigned long long)verdicts[i].at);
        else if (asked == CHECK)
            printf("ok %u\n", (unsigned)verdicts[i].pages);
        else
            show(sign_file, facts, lines[i], asked, clock, picture);
    }
    free(picture);
    free(verdicts);
    free(lines);
}

/* Reads a clock in decimal, and tells whether it is one. */
static int read_clock(const char *word, uint64_t *clock) {
    char *end;
    errno = 0;
    *clock = strtoull(word, &end, 10);
    return *word >= '0' && *word <= '9' && !*end && errno == 0;
}

int main(int count, char **words) {
    mode asked = CHECK;
    uint64_t clock = 0;
    octets sign_file, input;
    FILE *file;

    if (count == 4 && strcmp(words[1], "--draw") == 0 && read_clock(words[2], &clock)) {
        asked = DRAW;
    } else if (count == 3 && strcmp(words[1], "--colours") == 0) {
        asked = COLOURS;
    } else if (count != 2) {
        fputs("usage: judge [--draw CLOCK | --colours] SIGN_FILE < MESSAGES\n", stderr);
        return 2;
    }
    file = fopen(words[count - 1], "rb");
    if (!file)
        fail("the sign file can't be opened");
    sign_file = read_all(file);
    fclose(file);
    input = read_all(stdin);
    judge_all(sign_file, input, asked, clock);
    free(sign_file.octets);
    free(input.octets);
    if (fflush(stdout) != 0)
        fail("the output can't be written");
    return 0;
}

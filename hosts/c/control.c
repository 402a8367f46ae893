/* Drives the controller of a sign by a script: a host in C that holds a controller.
 *
 *   control SIGN_FILE
 *
 * A script is lines on standard input, as docs/formats.md describes them, and each has the reply that `signctl run` writes. The status is 1
 * after a line that is none of a script, 2 if there is no controller, and 3 if two answers of the library don't agree.
 *
 * Time passes as for a display driver that sleeps until what is shown may change. */
#include "latsefur.h"

#include <stdio.h>
#include <stdlib.h>
#include <string.h>

enum { MAX_LINE = 8300, MAX_TEXT = 4096, MAX_OWNER = 127 };

static latsefur_controller handle;
static latsefur_sign_facts facts;

/* A line, and how far it is read. */
typedef struct {
    const char *at;
    int is_bad;
} words;

/* Whether the next word, which goes up to a space or to the end, is this one. */
static int is_word(words *line, const char *word) {
    size_t length = strlen(word);
    if (strncmp(line->at, word, length) != 0 || (line->at[length] != ' ' && line->at[length] != 0))
        return 0;
    line->at += length;
    return 1;
}

/* A space and a number. */
static uint32_t number(words *line, uint64_t most) {
    uint64_t value = 0;
    int digits = 0;
    if (*line->at != ' ') {
        line->is_bad = 1;
        return 0;
    }
    line->at++;
    for (; *line->at >= '0' && *line->at <= '9' && digits < 11; line->at++, digits++)
        value = value * 10 + (uint64_t)(*line->at - '0');
    if (digits < 1 || digits > 10 || value > most)
        line->is_bad = 1;
    return (uint32_t)value;
}

static int digit_of(char digit) {
    const char *digits = "0123456789abcdef", *at;
    if (digit >= 'A' && digit <= 'F')
        digit = (char)(digit - 'A' + 'a');
    at = digit ? strchr(digits, digit) : NULL;
    return at ? (int)(at - digits) : -1;
}

/* A space and octets in hexadecimal, up to the end; or nothing, which is no octets. */
static size_t octets(words *line, uint8_t *into) {
    size_t count = 0;
    if (*line->at == ' ')
        line->at++;
    for (; line->at[0] && line->at[1]; line->at += 2, count++) {
        int high = digit_of(line->at[0]), low = digit_of(line->at[1]);
        if (high < 0 || low < 0) {
            line->is_bad = 1;
            return 0;
        }
        into[count] = (uint8_t)(high * 16 + low);
    }
    if (*line->at)
        line->is_bad = 1;
    return count;
}

static void write_reply(latsefur_reply reply) {
    switch (reply.kind) {
    case LATSEFUR_REPLY_DONE:
        puts("done");
        break;
    case LATSEFUR_REPLY_IDLE:
        puts("idle");
        break;
    case LATSEFUR_REPLY_WORKED:
        printf("worked %d %d %d %d %d\n", reply.number, reply.status, reply.validate_error, reply.multi_error, reply.multi_position);
        break;
    case LATSEFUR_REPLY_SHOWN:
        puts("shown");
        break;
    case LATSEFUR_REPLY_NOT_SHOWN:
        printf("not shown %d\n", reply.code);
        break;
    case LATSEFUR_REPLY_TICKED:
        puts("ticked");
        break;
    case LATSEFUR_REPLY_ENDED:
        puts("ended");
        break;
    default:
        printf("refused %d\n", reply.code);
    }
}

static void write_octets(const uint8_t *from, size_t count) {
    size_t i;
    if (count == 0)
        putchar('-');
    for (i = 0; i < count; i++)
        printf("%02x", from[i]);
}

static uint8_t write_row(uint8_t memory, uint16_t number) {
    static uint8_t text[MAX_TEXT], owner[MAX_OWNER];
    latsefur_message row = {0};
    uint8_t outcome = latsefur_row(&handle, memory, number, &row, text, sizeof text, owner, sizeof owner);
    if (outcome == LATSEFUR_REFUSED) {
        printf("refused %d\n", row.code);
        return LATSEFUR_DONE;
    }
    printf("row %d %d %d %d %d %d %04x ", memory, number, row.status, row.priority, row.beacon, row.pixel, row.crc);
    write_octets(owner, row.owner);
    putchar(' ');
    write_octets(text, row.multi);
    putchar('\n');
    return outcome;
}

static uint8_t write_report(void) {
    latsefur_report_facts r = {0};
    uint8_t outcome = latsefur_report(&handle, &r);
    printf("report used=%d free=%lu mode=%d shown=%d/%d crc=%04x priority=%d remaining=%d requester=%08lx activate=%d validate=%d multi=%d"
           " position=%d clock=%llu\n",
           r.used, (unsigned long)r.free, r.mode, r.shown_memory, r.shown_number, r.crc, r.priority, r.remaining, (unsigned long)r.requester,
           r.activate, r.validate, r.multi, r.position, (unsigned long long)r.clock);
    return outcome;
}

static uint8_t write_defaults(void) {
    latsefur_default_facts d = {0};
    uint8_t outcome = latsefur_defaults(&handle, &d);
    printf("defaults %d %d %d %d %d %d %d %d %d\n", d.font, d.line, d.page, d.page_on, d.page_off, d.flash_on, d.flash_off, d.fore, d.back);
    return outcome;
}

static void hold(int agrees, const char *what) {
    if (!agrees) {
        fprintf(stderr, "control: %s\n", what);
        exit(3);
    }
}

static uint8_t plane[LATSEFUR_PLANE_SIZE(LATSEFUR_MAX_WIDTH, LATSEFUR_MAX_HEIGHT)];
static uint8_t colours[LATSEFUR_COLOURS_SIZE(LATSEFUR_MAX_WIDTH, LATSEFUR_MAX_HEIGHT)];

/* Whether the plane of a colour has the pixels of this colour. */
static int has_colour(uint8_t colour) {
    size_t stride = (facts.width + 7u) / 8, row, column;
    for (row = 0; row < facts.height; row++)
        for (column = 0; column < facts.width; column++)
            if ((plane[row * stride + column / 8] >> (7 - column % 8) & 1) != (colours[row * facts.width + column] == colour))
                return 0;
    return 1;
}

/* The verdict on a text by the defaults in force, and its first page in all colours and in one. */
static void judge(const uint8_t *text, size_t length) {
    latsefur_verdict verdict = {0};
    uint8_t outcome = latsefur_held_check(&handle, text, length, &verdict);
    hold(outcome == verdict.outcome, "a verdict has another outcome");
    hold(latsefur_held_colours_of_page(&handle, text, length, 0, 0, colours, sizeof colours) == outcome, "a text is drawn otherwise than judged");
    hold(latsefur_held_plane_of_page(&handle, text, length, 0, 0, 1, plane, sizeof plane) == outcome, "a text is drawn otherwise than judged");
    hold(outcome != LATSEFUR_DONE || has_colour(1), "the plane of a page has other pixels than its colours");
}

/* Lets time pass, and sleeps up to a tenth before what is shown may change: until then it must stay. */
static uint8_t pass(uint32_t tenths, latsefur_reply *reply) {
    static uint8_t before[sizeof colours];
    latsefur_shown shown = {0}, later = {0};
    uint32_t left = 0;
    uint8_t outcome = latsefur_next_change(&handle, tenths, &left);
    hold(outcome == LATSEFUR_DONE && left <= tenths, "the next change is later than was asked for");
    if (left < 2)
        return latsefur_tick(&handle, tenths, reply);
    latsefur_colours(&handle, &shown, before, sizeof before);
    latsefur_tick(&handle, left - 1, reply);
    hold(reply->kind == LATSEFUR_REPLY_TICKED, "a duration ended before the next change");
    latsefur_colours(&handle, &later, colours, sizeof colours);
    hold(later.page == shown.page && later.is_on == shown.is_on, "another page was shown before the next change");
    hold(memcmp(before, colours, LATSEFUR_COLOURS_SIZE(facts.width, facts.height)) == 0, "a pixel changed before the next change");
    return latsefur_tick(&handle, tenths - (left - 1), reply);
}

static uint8_t write_frame(uint8_t colour) {
    latsefur_shown shown = {0}, same = {0};
    size_t stride = (facts.width + 7u) / 8, row, column;
    uint8_t outcome = latsefur_frame(&handle, colour, &shown, plane, sizeof plane);
    hold(latsefur_colours(&handle, &same, colours, sizeof colours) == outcome && has_colour(colour), "a frame has other pixels than the colours");
    hold(same.page == shown.page && same.phase == shown.phase && same.is_on == shown.is_on, "a frame shows another page than the colours");
    if (shown.is_on)
        printf("page %d phase %llu\n", shown.page, (unsigned long long)shown.phase);
    else
        puts("off");
    for (row = 0; row < facts.height; row++) {
        for (column = 0; column < facts.width; column++)
            putchar(plane[row * stride + column / 8] >> (7 - column % 8) & 1 ? '#' : '.');
        putchar('\n');
    }
    return outcome;
}

/* The number of a default by the name of its key, or 0. */
static uint8_t field(words *line) {
    static const char *const names[] = {"font", "line", "page", "page_on", "page_off", "flash_on", "flash_off", "fore", "back"};
    uint8_t i;
    if (*line->at++ == ' ')
        for (i = 0; i < 9; i++)
            if (is_word(line, names[i]))
                return (uint8_t)(i + 1);
    line->is_bad = 1;
    return 0;
}

/* The commands that name a message: its memory type and its number, and then a value or octets. */
static uint8_t command_message(words *line, const char *text_end, latsefur_reply *reply, int *is_known) {
    static const char *const names[] = {"request", "priority", "beacon", "pixel", "multi", "multix", "owner"};
    static uint8_t (*const sets[])(latsefur_controller *, uint8_t, uint16_t, uint8_t, latsefur_reply *) = {
        latsefur_request, latsefur_set_priority, latsefur_set_beacon, latsefur_set_pixel_service};
    static uint8_t into[MAX_LINE];
    int name = 0;
    uint8_t memory;
    uint16_t number_of;
    size_t count;
    while (name < 7 && !is_word(line, names[name]))
        name++;
    *is_known = name < 7;
    if (!*is_known)
        return LATSEFUR_DONE;
    memory = (uint8_t)number(line, 255);
    number_of = (uint16_t)number(line, 65535);
    if (name < 4) {
        uint8_t value = (uint8_t)number(line, 255);
        return line->is_bad || *line->at ? (line->is_bad = 1, LATSEFUR_DONE) : sets[name](&handle, memory, number_of, value, reply);
    }
    if (*line->at && *line->at != ' ')
        line->is_bad = 1;
    if (name == 4) {
        line->at += *line->at == ' ';
        count = (size_t)(text_end - line->at);
        memcpy(into, line->at, count);
    } else {
        count = octets(line, into);
    }
    if (line->is_bad)
        return LATSEFUR_DONE;
    if (name == 6)
        return latsefur_set_owner(&handle, memory, number_of, into, count, reply);
    judge(into, count);
    return latsefur_set_multi(&handle, memory, number_of, into, count, reply);
}

/* All other commands. */
static uint8_t command(words *line, latsefur_reply *reply, int *is_known) {
    uint8_t into[MAX_LINE];
    size_t count;
    *is_known = 1;
    if (is_word(line, "clear"))
        return *line->at ? (line->is_bad = 1, LATSEFUR_DONE) : latsefur_clear(&handle, reply);
    if (is_word(line, "work"))
        return *line->at ? (line->is_bad = 1, LATSEFUR_DONE) : latsefur_work(&handle, reply);
    if (is_word(line, "activate")) {
        count = octets(line, into);
        return line->is_bad ? LATSEFUR_BAD_LENGTH : latsefur_activate(&handle, into, count, reply);
    }
    if (is_word(line, "end")) {
        count = octets(line, into);
        return line->is_bad ? LATSEFUR_BAD_LENGTH : latsefur_set_end(&handle, into, count, reply);
    }
    if (is_word(line, "tick")) {
        uint32_t tenths = number(line, UINT32_MAX);
        return line->is_bad || *line->at ? (line->is_bad = 1, LATSEFUR_DONE) : pass(tenths, reply);
    }
    if (is_word(line, "default")) {
        uint8_t name = field(line), value = line->is_bad ? 0 : (uint8_t)number(line, 255);
        return line->is_bad || *line->at ? (line->is_bad = 1, LATSEFUR_DONE) : latsefur_set_default(&handle, name, value, reply);
    }
    *is_known = 0;
    return LATSEFUR_DONE;
}

/* The questions, whose answers are written here. */
static uint8_t question(words *line) {
    if (is_word(line, "row")) {
        uint8_t memory = (uint8_t)number(line, 255);
        uint16_t number_of = line->is_bad ? 0 : (uint16_t)number(line, 65535);
        return line->is_bad || *line->at ? (line->is_bad = 1, LATSEFUR_DONE) : write_row(memory, number_of);
    }
    if (is_word(line, "frame")) {
        uint8_t colour = (uint8_t)number(line, 255);
        return line->is_bad || *line->at ? (line->is_bad = 1, LATSEFUR_DONE) : write_frame(colour);
    }
    if (is_word(line, "report") && !*line->at)
        return write_report();
    if (is_word(line, "defaults") && !*line->at)
        return write_defaults();
    line->is_bad = 1;
    return LATSEFUR_DONE;
}

/* Does what a line asks for. It gives whether the script goes on. */
static int answer(const char *text, size_t length) {
    words line = {0};
    latsefur_reply reply = {0};
    int is_known;
    uint8_t outcome;
    line.at = text;
    outcome = command_message(&line, text + length, &reply, &is_known);
    if (!is_known)
        outcome = command(&line, &reply, &is_known);
    if (is_known && !line.is_bad && outcome == LATSEFUR_DONE)
        write_reply(reply);
    else if (!is_known)
        outcome = question(&line);
    return !line.is_bad && outcome == LATSEFUR_DONE;
}

static uint8_t make(const char *path) {
    uint8_t *file = malloc((size_t)1 << 24), outcome;
    FILE *from = fopen(path, "rb");
    size_t length;
    if (!file || !from)
        exit(2);
    length = fread(file, 1, (size_t)1 << 24, from);
    fclose(from);
    outcome = latsefur_controller_new(file, length, &handle);
    free(file);
    if (outcome == LATSEFUR_DONE)
        outcome = latsefur_held_sign(&handle, &facts);
    return outcome;
}

/* Reads a line without its end. It gives its length, or -1 if the input ends, or -2 if the line is too long or isn't ended. */
static long read_line(char *line) {
    long length = 0;
    int octet;
    while ((octet = getchar()) != EOF && octet != '\n') {
        if (length > MAX_LINE)
            return -2;
        line[length++] = (char)octet;
    }
    if (octet == EOF)
        return length ? -2 : -1;
    if (length && line[length - 1] == '\r')
        length--;
    line[length] = 0;
    return length;
}

int main(int count, char **arguments) {
    static char line[MAX_LINE + 2];
    long length;
    int is_good = 1;
    if (count != 2)
        return 2;
    if (make(arguments[1]) != LATSEFUR_DONE) {
        fputs("control: there is no controller for this sign file\n", stderr);
        return 2;
    }
    while (is_good && (length = read_line(line)) != -1)
        is_good = length >= 0 && (length == 0 || line[0] == '#' || answer(line, (size_t)length));
    latsefur_controller_free(&handle);
    latsefur_controller_free(&handle);
    return is_good ? 0 : 1;
}

/* Keeps the state of a controller over a loss of power: a host in C.
 *
 *   keep SIGN_FILE FOLDER
 *
 * FOLDER has two files, `state-0` and `state-1`, which are written in turn, each with fsync, and then so is the folder. So whenever the power
 * fails, one of them is whole, with the last state or the last but one. At the start the newer of those that are whole is restored, and the program
 * writes `restored N` or `new`. N is a number in the state, here that of the message that follows a duration. Then it raises N, again and again,
 * and writes `saved N` after each time that the state is kept. */
#include "latsefur.h"

#include <fcntl.h>
#include <stdio.h>
#include <stdlib.h>
#include <string.h>
#include <unistd.h>

/* The octets before and behind a state: how many states were kept before it, twice, so that a file that is only half written shows. */
enum { COUNT = 8 };

static latsefur_controller controller;
static uint8_t *octets;
static size_t room;

static void fail(const char *why) {
    fprintf(stderr, "keep: %s\n", why);
    exit(1);
}

static void expect(int is_so, const char *why) {
    if (!is_so)
        fail(why);
}

static void put_count(uint8_t *at, uint64_t count) {
    int i;
    for (i = 0; i < COUNT; i++)
        at[i] = (uint8_t)(count >> (8 * (COUNT - 1 - i)));
}

static uint64_t count_at(const uint8_t *at) {
    uint64_t count = 0;
    int i;
    for (i = 0; i < COUNT; i++)
        count = count << 8 | at[i];
    return count;
}

static const char *path_of(const char *folder, uint64_t count) {
    static char path[4096];
    expect(snprintf(path, sizeof path, "%s/state-%d", folder, (int)(count % 2)) < (int)sizeof path, "a long name");
    return path;
}

/* Reads a file whole, and tells how many octets it has: 0 if there is none. */
static size_t read_file(const char *path, uint8_t *into, size_t most) {
    FILE *stream = fopen(path, "rb");
    size_t length;
    if (stream == NULL)
        return 0;
    length = fread(into, 1, most, stream);
    fclose(stream);
    return length;
}

/* Which states of a file were kept before, plus one; 0 if it isn't whole. */
static uint64_t kept_in(const char *folder, uint64_t place) {
    size_t length = read_file(path_of(folder, place), octets, room);
    if (length < 2 * COUNT || memcmp(octets, octets + length - COUNT, COUNT) != 0)
        return 0;
    return count_at(octets) + 1;
}

static int restored_from(const char *folder, uint64_t place) {
    uint8_t fault;
    size_t length = read_file(path_of(folder, place), octets, room);
    return latsefur_restore(&controller, octets + COUNT, length - 2 * COUNT, &fault) == LATSEFUR_DONE;
}

/* Restores the newest state that is whole, and tells how many were kept up to it. */
static uint64_t restore(const char *folder) {
    uint64_t first = kept_in(folder, 0), second = kept_in(folder, 1), newer = first > second ? first : second, older = first + second - newer;
    if (newer != 0 && restored_from(folder, newer - 1))
        return newer;
    if (older != 0 && restored_from(folder, older - 1))
        return older;
    return 0;
}

/* Keeps the names of the files too: a file that is new is lost without its name. */
static void keep_names(const char *folder) {
    int names = open(folder, O_RDONLY);
    expect(names >= 0 && fsync(names) == 0 && close(names) == 0, "the folder can't be kept");
}

/* Keeps the state in the file of the last but one. */
static void keep(const char *folder, uint64_t count) {
    size_t length = 0, done = 0;
    int file = open(path_of(folder, count), O_WRONLY | O_CREAT | O_TRUNC, 0666);
    expect(file >= 0, "a state can't be written");
    expect(latsefur_save(&controller, octets + COUNT, room - 2 * COUNT, &length) == LATSEFUR_DONE, "the state isn't saved");
    put_count(octets, count);
    put_count(octets + COUNT + length, count);
    length += 2 * COUNT;
    while (done < length) {
        ssize_t written = write(file, octets + done, length - done < 64 ? length - done : 64);
        expect(written > 0, "a state can't be written");
        done += (size_t)written;
    }
    expect(fsync(file) == 0 && close(file) == 0, "a state can't be written");
    keep_names(folder);
}

static unsigned number(void) {
    uint8_t code[5];
    expect(latsefur_end(&controller, code, sizeof code) == LATSEFUR_DONE, "the code isn't told");
    return (unsigned)code[1] << 8 | code[2];
}

int main(int count, char **words) {
    static uint8_t file[1 << 20];
    uint64_t kept, revision, last;
    unsigned next;
    latsefur_reply reply;
    expect(count == 3, "usage: keep SIGN_FILE FOLDER");
    expect(latsefur_controller_new(file, read_file(words[1], file, sizeof file), &controller) == LATSEFUR_DONE, "no controller");
    expect(latsefur_save_size(&controller, &room) == LATSEFUR_DONE, "no size");
    room += 2 * COUNT;
    octets = malloc(room);
    expect(octets != NULL, "out of memory");
    kept = restore(words[2]);
    if (kept != 0)
        printf("restored %u\n", number());
    else
        puts("new");
    fflush(stdout);
    expect(latsefur_revision(&controller, &last) == LATSEFUR_DONE, "no revision");
    for (next = kept != 0 ? number() + 1 : 1; next < 65536; next++) {
        uint8_t code[5] = {7, 0, 0, 0, 0};
        code[1] = (uint8_t)(next >> 8);
        code[2] = (uint8_t)next;
        expect(latsefur_set_end(&controller, code, sizeof code, &reply) == LATSEFUR_DONE, "no end");
        expect(latsefur_revision(&controller, &revision) == LATSEFUR_DONE, "no revision");
        if (revision == last)
            continue;
        last = revision;
        keep(words[2], kept++);
        printf("saved %u\n", next);
        fflush(stdout);
    }
    latsefur_controller_free(&controller);
    free(octets);
    return 0;
}

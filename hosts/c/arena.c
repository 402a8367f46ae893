/* Gives the library its memory from a fixed area, as on a machine without a heap: a host in C.
 *
 *   arena < SIGN_FILE           in an area of AREA octets
 *   arena OCTETS < SIGN_FILE    in the first OCTETS of it
 *
 * It writes how many octets of the area the controller of the sign needs, and how many it keeps: an area of as many octets is enough, and
 * a smaller one isn't. Before that it makes the controller, shows a message for a minute, draws all that is shown, and frees the controller; all
 * of this twice. The status is 1 if something fails, as in an area that is too small, and 2 without a sign file or after other words.
 *
 * malloc, realloc, free and `area_for`, which tells the two numbers of a sign file, stand first, and may be copied whole. They serve one thread.
 * The rest uses no stream, since the C library of a larger machine takes the memory of its streams by the same functions. */
#define _POSIX_C_SOURCE 200112L
#include "latsefur.h"

#include <stdio.h>
#include <stdlib.h>
#include <string.h>
#include <unistd.h>

#ifndef AREA
#define AREA (4u << 20)
#endif

/* The area is blocks, one after the other up to `end`, and each begins with a unit that says how long it is. A block is taken at the lowest
 * place that has room. So a larger area changes no place, and the highest end there was is the least area that is enough. */
typedef union {
    struct {
        size_t units; /* of the block, this one too */
        size_t is_taken;
    } block;
    long double aligned;
} unit;

static unit area[AREA / sizeof(unit)];
static size_t room = AREA / sizeof(unit), end, highest, requests;

/* The units that a block needs for some octets; more than there are, if they are too many. */
static size_t units_for(size_t octets) {
    return octets < AREA ? (octets + sizeof(unit) - 1) / sizeof(unit) + 1 : AREA;
}

static void set_end(size_t to) {
    end = to;
    if (end > highest)
        highest = end;
}

/* Adds the free blocks behind a block to it. */
static void join(size_t at) {
    size_t next = at + area[at].block.units;
    while (next < end && !area[next].block.is_taken) {
        area[at].block.units += area[next].block.units;
        next = at + area[at].block.units;
    }
}

/* The lowest free block with room, or the end. What is free in front of the end becomes part of the rest. */
static size_t place_for(size_t units) {
    size_t at;
    for (at = 0; at < end; at += area[at].block.units) {
        if (area[at].block.is_taken)
            continue;
        join(at);
        if (at + area[at].block.units == end)
            set_end(at);
        if (at == end || area[at].block.units >= units)
            return at;
    }
    return end;
}

/* Takes this many units of a block, and leaves a free block of the others. */
static void *take(size_t at, size_t units) {
    size_t others = area[at].block.units - units;
    area[at].block.units = units;
    area[at].block.is_taken = 1;
    if (others > 0) {
        area[at + units].block.units = others;
        area[at + units].block.is_taken = 0;
    }
    return &area[at + 1];
}

void *malloc(size_t size) {
    size_t units = units_for(size), at = place_for(units);
    ++requests;
    if (at == end) {
        if (room - end < units)
            return NULL;
        area[at].block.units = units;
        set_end(at + units);
    }
    return take(at, units);
}

void free(void *old) {
    if (old)
        ((unit *)old)[-1].block.is_taken = 0;
}

void *realloc(void *old, size_t size) {
    size_t units = units_for(size), at, kept;
    void *made;
    if (!old)
        return malloc(size);
    at = (size_t)((unit *)old - area) - 1;
    kept = area[at].block.units;
    ++requests;
    join(at);
    if (area[at].block.units >= units)
        return take(at, units);
    if (place_for(units) == end && at + area[at].block.units == end) {
        if (room - at < units)
            return NULL;
        area[at].block.units = units;
        set_end(at + units);
        return old;
    }
    made = malloc(size);
    if (made) {
        memcpy(made, old, (kept - 1) * sizeof(unit));
        free(old);
    }
    return made;
}

/* How many octets of the area are taken. */
static size_t taken(void) {
    size_t at, units = 0;
    for (at = 0; at < end; at += area[at].block.units)
        units += area[at].block.is_taken ? area[at].block.units : 0;
    return units * sizeof(unit);
}

/* Tells how many octets of the area the controller of a sign file needs, beside those that are taken, and how many of these it keeps. The
 * controller is made, and freed again; the outcome is that of `latsefur_controller_new`. */
static uint8_t area_for(const uint8_t *sign, size_t length, size_t *needs, size_t *keeps) {
    latsefur_controller held = {0};
    const size_t from = place_for(AREA), before = taken(); /* no block is so large, so the place is the end */
    uint8_t outcome;
    highest = from;
    outcome = latsefur_controller_new(sign, length, &held);
    *needs = (highest - from) * sizeof(unit);
    *keeps = taken() - before;
    latsefur_controller_free(&held);
    return outcome;
}

static void fail(int status, const char *why) {
    if (write(STDERR_FILENO, why, strlen(why)) < 0)
        status = 1;
    _exit(status);
}

static void expect(int holds, const char *otherwise) {
    if (!holds)
        fail(1, otherwise);
}

/* Shows the message `A` for a minute, and draws it whenever it may have changed. */
static void show(latsefur_controller *held) {
    static uint8_t pixels[LATSEFUR_COLOURS_SIZE(LATSEFUR_MAX_WIDTH, LATSEFUR_MAX_HEIGHT)];
    static const uint8_t text[] = {'A'};
    const uint16_t crc = latsefur_message_crc(text, sizeof text, 0, 0);
    const uint8_t code[12] = {0, 1, 255, 3, 0, 1, (uint8_t)(crc >> 8), (uint8_t)(crc & 255), 127, 0, 0, 1};
    latsefur_reply reply = {0};
    latsefur_shown shown = {0};
    uint32_t tenths = 0;
    latsefur_request(held, 3, 1, 6, &reply);
    latsefur_set_multi(held, 3, 1, text, sizeof text, &reply);
    latsefur_request(held, 3, 1, 7, &reply);
    latsefur_work(held, &reply);
    latsefur_activate(held, code, sizeof code, &reply);
    expect(reply.kind == LATSEFUR_REPLY_SHOWN, "arena: the message isn't shown\n");
    while (reply.kind != LATSEFUR_REPLY_ENDED) {
        expect(latsefur_colours(held, &shown, pixels, sizeof pixels) == LATSEFUR_DONE, "arena: nothing is drawn\n");
        latsefur_next_change(held, UINT32_MAX, &tenths);
        latsefur_tick(held, tenths, &reply);
    }
}

int main(int count, char **words) {
    static uint8_t sign[1 << 20];
    static char told[100];
    const size_t before = taken(); /* by the C library, if it takes any */
    size_t length = 0, needs = 0, keeps = 0, made;
    ssize_t more;
    uint8_t outcome;
    int i;
    if (count > 2 || (count == 2 && (words[1][0] < '0' || words[1][0] > '9')))
        fail(2, "usage: arena [OCTETS] < SIGN_FILE\n");
    if (count == 2 && strtoul(words[1], NULL, 10) < AREA)
        room = strtoul(words[1], NULL, 10) / sizeof(unit);
    while ((more = read(STDIN_FILENO, sign + length, sizeof sign - length)) > 0)
        length += (size_t)more;
    if (length == 0 || length == sizeof sign)
        fail(2, "arena: no sign file of less than 1 MiB is there\n");
    outcome = area_for(sign, length, &needs, &keeps);
    expect(taken() == before, "arena: memory isn't given back\n");
    expect(outcome != LATSEFUR_NO_MEMORY, "arena: the area is too small\n");
    expect(outcome == LATSEFUR_DONE, "arena: the sign file is wrong\n");
    for (i = 0; i < 2; i++) {
        latsefur_controller held = {0};
        expect(latsefur_controller_new(sign, length, &held) == LATSEFUR_DONE, "arena: the area is too small a second time\n");
        made = requests;
        show(&held);
        expect(requests == made && taken() == before + keeps, "arena: a call other than `new` takes memory\n");
        latsefur_controller_free(&held);
        expect(taken() == before, "arena: memory isn't given back\n");
    }
    expect((highest - place_for(AREA)) * sizeof(unit) == needs, "arena: a later controller needs more\n");
    i = snprintf(told, sizeof told, "needs %zu octets, keeps %zu\n", needs, keeps);
    return write(STDOUT_FILENO, told, (size_t)i) == (ssize_t)i ? 0 : 1;
}

/* Measures how long calls take, in microseconds of processor time, each as the least of several runs.
 *
 *   timing SIGN_FILE TEXT [ROUNDS] */
#include "latsefur.h"

#include <stdio.h>
#include <stdlib.h>
#include <string.h>
#include <time.h>

enum { RUNS = 7, TEXTS = 1000 };

static uint8_t file[1 << 20], picture[LATSEFUR_COLOURS_SIZE(LATSEFUR_MAX_WIDTH, LATSEFUR_MAX_HEIGHT)];
static size_t file_len, text_len;
static const uint8_t *text;
static latsefur_text texts[TEXTS];
static latsefur_verdict verdicts[TEXTS];

static uint8_t tell(void) {
    static latsefur_sign_facts facts;
    return latsefur_sign(file, file_len, &facts);
}

static uint8_t check(void) {
    return latsefur_check(file, file_len, text, text_len, verdicts);
}

static uint8_t check_all(void) {
    return latsefur_check_all(file, file_len, texts, TEXTS, verdicts, TEXTS);
}

static uint8_t plane(void) {
    return latsefur_plane_at(file, file_len, text, text_len, 0, 1, picture, sizeof picture);
}

static uint8_t colours(void) {
    return latsefur_colours_at(file, file_len, text, text_len, 0, picture, sizeof picture);
}

/* A controller, with the text as its first changeable message. */
static latsefur_controller held;
static latsefur_reply reply;
static uint8_t code[12] = {0xff, 0xff, 0xff, 3, 0, 1};

static uint8_t make(void) {
    return latsefur_controller_new(file, file_len, &held);
}

static uint8_t store(void) {
    uint16_t crc = latsefur_message_crc(text, text_len, 0, 0);
    code[6] = (uint8_t)(crc >> 8);
    code[7] = (uint8_t)crc;
    latsefur_request(&held, 3, 1, 6, &reply);
    latsefur_set_multi(&held, 3, 1, text, text_len, &reply);
    latsefur_request(&held, 3, 1, 7, &reply);
    latsefur_work(&held, &reply);
    return reply.status == 4 ? LATSEFUR_DONE : LATSEFUR_REFUSED;
}

static uint8_t activate(void) {
    latsefur_activate(&held, code, sizeof code, &reply);
    return reply.kind == LATSEFUR_REPLY_SHOWN ? LATSEFUR_DONE : LATSEFUR_REFUSED;
}

static uint8_t tick(void) {
    return latsefur_tick(&held, 1, &reply);
}

static uint8_t set_multi(void) {
    return latsefur_set_multi(&held, 3, 1, text, text_len, &reply);
}

static uint8_t report(void) {
    static latsefur_report_facts facts;
    return latsefur_report(&held, &facts);
}

static uint8_t frame(void) {
    static latsefur_shown shown;
    return latsefur_frame(&held, 1, &shown, picture, sizeof picture);
}

static uint8_t frame_colours(void) {
    static latsefur_shown shown;
    return latsefur_colours(&held, &shown, picture, sizeof picture);
}

static uint8_t next_change(void) {
    static uint32_t tenths;
    return latsefur_next_change(&held, 600, &tenths);
}

static uint8_t held_sign(void) {
    static latsefur_sign_facts facts;
    return latsefur_held_sign(&held, &facts);
}

static uint8_t held_table(void) {
    static latsefur_table_facts facts;
    return latsefur_held_table(&held, &facts);
}

static uint8_t held_font(void) {
    static latsefur_font_facts facts;
    return latsefur_held_font(&held, 1, &facts);
}

static uint8_t held_check(void) {
    return latsefur_held_check(&held, text, text_len, verdicts);
}

static uint8_t held_plane(void) {
    return latsefur_held_plane_of_page(&held, text, text_len, 0, 0, 1, picture, sizeof picture);
}

static uint8_t held_colours(void) {
    return latsefur_held_colours_of_page(&held, text, text_len, 0, 0, picture, sizeof picture);
}

/* Writes the time of a call, shared out over so many texts. */
static void measure(const char *name, uint8_t (*call)(void), int rounds, int shared) {
    double least = 0, spent;
    int run, round;
    for (run = 0; run < RUNS; run++) {
        clock_t begun = clock();
        for (round = 0; round < rounds; round++)
            if (call() != LATSEFUR_DONE) {
                fprintf(stderr, "timing: %s isn't done\n", name);
                exit(1);
            }
        spent = (double)(clock() - begun) * 1e6 / CLOCKS_PER_SEC / rounds / shared;
        if (run == 0 || spent < least)
            least = spent;
    }
    printf("%-30s %9.2f\n", name, least);
}

int main(int count, char **words) {
    FILE *stream = count > 2 ? fopen(words[1], "rb") : NULL;
    int rounds = count > 3 ? atoi(words[3]) : 200, i;
    if (!stream || rounds < 1) {
        fputs("usage: timing SIGN_FILE TEXT [ROUNDS]\n", stderr);
        return 2;
    }
    file_len = fread(file, 1, sizeof file, stream);
    fclose(stream);
    text = (const uint8_t *)words[2];
    text_len = strlen(words[2]);
    for (i = 0; i < TEXTS; i++) {
        texts[i].octets = text;
        texts[i].length = text_len;
    }
    measure("latsefur_sign", tell, rounds, 1);
    measure("latsefur_check", check, rounds, 1);
    measure("latsefur_check_all, a text", check_all, (rounds + 19) / 20, TEXTS);
    measure("latsefur_plane_at", plane, rounds, 1);
    measure("latsefur_colours_at", colours, rounds, 1);
    measure("latsefur_controller_new", make, rounds, 1);
    measure("a message stored and judged", store, 1, 1);
    measure("latsefur_activate", activate, rounds, 1);
    measure("latsefur_tick", tick, rounds, 1);
    measure("latsefur_set_multi", set_multi, rounds, 1);
    measure("latsefur_report", report, rounds, 1);
    measure("latsefur_frame", frame, rounds, 1);
    measure("latsefur_colours", frame_colours, rounds, 1);
    measure("latsefur_next_change", next_change, rounds, 1);
    measure("latsefur_held_sign", held_sign, rounds, 1);
    measure("latsefur_held_table", held_table, rounds, 1);
    measure("latsefur_held_font", held_font, rounds, 1);
    measure("latsefur_held_check", held_check, rounds, 1);
    measure("latsefur_held_plane_of_page", held_plane, rounds, 1);
    measure("latsefur_held_colours_of_page", held_colours, rounds, 1);
    latsefur_controller_free(&held);
    return 0;
}

/* Holds the library to what latsefur.h says of outcomes and of buffers. `tests/hosts` runs it, also with sanitizers.
 *
 *   limits SIGN_FILE..
 *
 * Each sign must accept `A[np]A`. The linker must wrap malloc, realloc and free, so that memory can be refused and counted:
 * -Wl,--wrap=malloc,--wrap=realloc,--wrap=free. */
#define _DEFAULT_SOURCE
#include "latsefur.h"

#include <pthread.h>
#include <stdio.h>
#include <stdlib.h>
#include <string.h>
#include <sys/mman.h>

/* The stack that latsefur.h asks for: of a call that reads a sign file, and of any other. What groups of the others use at most, as
 * docs/hosts.md says. A larger stack, in which it is seen how much is used. */
enum { STACK = 64 << 10, HELD_STACK = 8 << 10 };
enum { DRAWING = 6 << 10, JUDGING = 3 << 10, TELLING = 1 << 10, PAINTED = 256 << 10 };

/* What a sanitizer uses of the stack itself, when it begins a thread. */
#ifndef SANITIZER_STACK
#define SANITIZER_STACK 0
#endif

enum { MARK = 0xa5, BEHIND = 16, THREADS = 4, MANY = 1000 };

static unsigned long checks;

#define EXPECT(holds)                                                                      \
    do {                                                                                   \
        ++checks;                                                                          \
        if (!(holds)) {                                                                    \
            fprintf(stderr, "limits: %s:%d: this doesn't hold: %s\n", path, __LINE__, #holds); \
            exit(1);                                                                       \
        }                                                                                  \
    } while (0)

/* What is tested: the path of a sign file, for the words of a failure, its octets, and what its sign is like. */
static const char *path;
static uint8_t *file;
static size_t file_len;
static latsefur_sign_facts facts;

/* Memory: while it is watched, requests are counted, and blocks that are taken and not given back. From `left` requests on all are
 * refused. */
static int is_watched;
static size_t requests, blocks, left, refused;

void *__real_malloc(size_t size);
void *__real_realloc(void *old, size_t size);
void __real_free(void *old);
void *__wrap_malloc(size_t size);
void *__wrap_realloc(void *old, size_t size);
void __wrap_free(void *old);

static int is_refused(void) {
    if (!is_watched)
        return 0;
    ++requests;
    if (left == 0) {
        ++refused;
        return 1;
    }
    --left;
    return 0;
}

void *__wrap_malloc(size_t size) {
    void *made = is_refused() ? NULL : __real_malloc(size);
    if (is_watched && made)
        ++blocks;
    return made;
}

void *__wrap_realloc(void *old, size_t size) {
    void *made = is_refused() ? NULL : __real_realloc(old, size);
    if (is_watched && made && !old)
        ++blocks;
    return made;
}

void __wrap_free(void *old) {
    if (is_watched && old)
        --blocks;
    __real_free(old);
}

static const uint8_t *octets_of(const char *text) {
    return (const uint8_t *)text;
}

/* The number after this key of the sign file, and how often these words stand in it. */
static unsigned long number_at(const char *key) {
    const char *at = strstr((const char *)file, key);
    EXPECT(at != NULL);
    return strtoul(at + strlen(key), NULL, 10);
}

static int count_of(const char *words) {
    const char *at = (const char *)file;
    int count = 0;
    while ((at = strstr(at, words)) != NULL) {
        at++;
        count++;
    }
    return count;
}

/* The exports on a sign file and a text, each by a number, with outputs that have no value yet but marks. */
typedef struct {
    latsefur_sign_facts facts;
    latsefur_verdict verdict, verdicts[2];
    latsefur_shown shown;
    uint8_t plane[LATSEFUR_PLANE_SIZE(LATSEFUR_MAX_WIDTH, LATSEFUR_MAX_HEIGHT) + BEHIND];
    uint8_t colours[LATSEFUR_COLOURS_SIZE(LATSEFUR_MAX_WIDTH, LATSEFUR_MAX_HEIGHT) + BEHIND];
    uint8_t told[1 << 18];
    size_t count;
} outputs;

static outputs out, marked;

typedef enum { SIGN, CHECK, CHECK_ALL, EXPLAIN, SHOWN_AT, PLANE_AT, PLANE_OF_PAGE, COLOURS_AT, COLOURS_OF_PAGE, FILM, EXPORTS } export;

static uint8_t call(export which, const uint8_t *sign, size_t sign_len, const uint8_t *text, size_t text_len) {
    latsefur_text texts[1];
    texts[0].octets = text;
    texts[0].length = text_len;
    memset(&out, MARK, sizeof out);
    switch (which) {
    case SIGN:
        return latsefur_sign(sign, sign_len, &out.facts);
    case CHECK:
        return latsefur_check(sign, sign_len, text, text_len, &out.verdict);
    case CHECK_ALL:
        return latsefur_check_all(sign, sign_len, texts, 1, out.verdicts, 2);
    case SHOWN_AT:
        return latsefur_shown_at(sign, sign_len, text, text_len, 0, &out.shown);
    case PLANE_AT:
        return latsefur_plane_at(sign, sign_len, text, text_len, 0, 1, out.plane, sizeof out.plane);
    case PLANE_OF_PAGE:
        return latsefur_plane_of_page(sign, sign_len, text, text_len, 0, 0, 1, out.plane, sizeof out.plane);
    case COLOURS_AT:
        return latsefur_colours_at(sign, sign_len, text, text_len, 0, out.colours, sizeof out.colours);
    case EXPLAIN:
        return latsefur_explain(sign, sign_len, text, text_len, 1, out.told, sizeof out.told, &out.count);
    case FILM:
        return latsefur_film(sign, sign_len, text, text_len, 1, 0, out.told, sizeof out.told, &out.count);
    default:
        return latsefur_colours_of_page(sign, sign_len, text, text_len, 0, 0, out.colours, sizeof out.colours);
    }
}

/* A call that draws, with a buffer that has no room. */
static uint8_t call_small(export which, const uint8_t *text, size_t text_len) {
    memset(&out, MARK, sizeof out);
    switch (which) {
    case PLANE_AT:
        return latsefur_plane_at(file, file_len, text, text_len, 0, 1, out.plane, 0);
    case PLANE_OF_PAGE:
        return latsefur_plane_of_page(file, file_len, text, text_len, 0, 0, 1, out.plane, 0);
    case COLOURS_AT:
        return latsefur_colours_at(file, file_len, text, text_len, 0, out.colours, 0);
    case FILM:
        return latsefur_film(file, file_len, text, text_len, 1, 0, out.told, 0, &out.count);
    default:
        return latsefur_colours_of_page(file, file_len, text, text_len, 0, 0, out.colours, 0);
    }
}

static int is_untouched(void) {
    return memcmp(&out, &marked, sizeof out) == 0;
}

static int is_marked(const uint8_t *from, size_t count) {
    size_t i;
    for (i = 0; i < count; i++)
        if (from[i] != MARK)
            return 0;
    return 1;
}

static void expect_outcome(uint8_t outcome, const uint8_t *sign, size_t sign_len, const char *text) {
    int which;
    for (which = SIGN; which < EXPORTS; which++) {
        EXPECT(call((export)which, sign, sign_len, octets_of(text), strlen(text)) == outcome);
        EXPECT(is_untouched());
    }
}

/* The sign file with the first number at this key changed to 0. */
static uint8_t *with_zero(const char *key) {
    uint8_t *copy = malloc(file_len + 1);
    char *at;
    memcpy(copy, file, file_len);
    copy[file_len] = 0;
    at = strstr((char *)copy, key);
    EXPECT(at != NULL);
    for (at += strlen(key); at[1] >= '0' && at[1] <= '9'; at++)
        *at = ' ';
    *at = '0';
    return copy;
}

static void test_sign_files(void) {
    uint8_t *bad;
    expect_outcome(LATSEFUR_NO_SIGN_FILE, octets_of(""), 0, "A");
    expect_outcome(LATSEFUR_NO_SIGN_FILE, octets_of("width"), 5, "A");
    expect_outcome(LATSEFUR_NO_SIGN_FILE, octets_of("\xff\xfe"), 2, "A");
    expect_outcome(LATSEFUR_NO_SIGN_FILE, file, 40, "A");
    bad = with_zero("\nheight = ");
    expect_outcome(LATSEFUR_SIGN_FAULT, bad, file_len, "A");
    free(bad);
    bad = with_zero("\nslots = ");
    EXPECT(call(CHECK, bad, file_len, octets_of("A"), 1) == LATSEFUR_DONE);
    free(bad);
}

static void expect_verdict(const char *text, latsefur_verdict wanted) {
    latsefur_verdict *verdicts[2];
    int i;
    EXPECT(call(CHECK, file, file_len, octets_of(text), strlen(text)) == wanted.outcome);
    verdicts[0] = &out.verdict;
    for (i = 0; i < 2; i++) {
        EXPECT(verdicts[i]->outcome == wanted.outcome);
        EXPECT(verdicts[i]->pages == wanted.pages && verdicts[i]->cycle == wanted.cycle);
        EXPECT(verdicts[i]->code == wanted.code && verdicts[i]->at == wanted.at);
        if (i == 0) {
            EXPECT(call(CHECK_ALL, file, file_len, octets_of(text), strlen(text)) == LATSEFUR_DONE);
            verdicts[1] = &out.verdicts[0];
        }
    }
    EXPECT(is_marked((uint8_t *)&out.verdicts[1], sizeof out.verdicts[1]));
}

static void test_verdicts(void) {
    latsefur_verdict accepted = {0, 30, LATSEFUR_DONE, 0, 2}, refused_text = {1, 0, LATSEFUR_REFUSED, LATSEFUR_UNSUPPORTED_TAG, 0};
    expect_verdict("[pt10o5]A[np]A", accepted);
    expect_verdict("A[zz]", refused_text);
    accepted.pages = 1;
    accepted.cycle = 15;
    expect_verdict("[pt10o5]", accepted);
    EXPECT(call(CHECK, file, file_len, octets_of(""), 0) == LATSEFUR_DONE);
    EXPECT(out.verdict.outcome == LATSEFUR_DONE && out.verdict.pages == 1);
}

static void test_refused(void) {
    int which;
    for (which = SHOWN_AT; which < EXPORTS; which++) {
        EXPECT(call((export)which, file, file_len, octets_of("A[zz]"), 5) == LATSEFUR_REFUSED);
        EXPECT(is_untouched());
    }
}

static void test_check_all(void) {
    latsefur_text texts[3];
    latsefur_verdict verdicts[4];
    int i;
    for (i = 0; i < 3; i++) {
        texts[i].octets = octets_of("A[np]A[");
        texts[i].length = i == 2 ? 0 : 6 + (size_t)i;
    }
    memset(verdicts, MARK, sizeof verdicts);
    EXPECT(latsefur_check_all(file, file_len, texts, 3, verdicts, 2) == LATSEFUR_TOO_SMALL);
    EXPECT(latsefur_check_all(file, file_len, texts, 1, verdicts, 0) == LATSEFUR_TOO_SMALL);
    EXPECT(latsefur_check_all(file, file_len, texts, 0, verdicts, 4) == LATSEFUR_DONE);
    EXPECT(latsefur_check_all(file, file_len, texts, 0, verdicts, 0) == LATSEFUR_DONE);
    EXPECT(is_marked((uint8_t *)verdicts, sizeof verdicts));
    EXPECT(latsefur_check_all(file, file_len, texts, 3, verdicts, 4) == LATSEFUR_DONE);
    EXPECT(verdicts[0].outcome == LATSEFUR_DONE && verdicts[0].pages == 2);
    EXPECT(verdicts[1].outcome == LATSEFUR_REFUSED && verdicts[1].code == LATSEFUR_UNSUPPORTED_TAG && verdicts[1].at == 6);
    EXPECT(verdicts[2].outcome == LATSEFUR_DONE && verdicts[2].pages == 1);
    EXPECT(is_marked((uint8_t *)&verdicts[3], sizeof verdicts[3]));
}

/* Each number of a kind has one sentence, of at most 64 octets, and no other number has one. */
static void test_sentences(void) {
    static const int many[8] = {0, 7, 5, 8, 10, 2, 9, 16};
    int kind, number, found;
    for (kind = 0; kind < 256; kind++) {
        found = 0;
        for (number = 0; number < 256; number++) {
            uint8_t outcome;
            out.count = 0;
            memset(out.told, MARK, 65);
            outcome = latsefur_sentence((uint8_t)kind, (uint8_t)number, out.told, 64, &out.count);
            EXPECT(outcome == LATSEFUR_DONE ? out.count > 0 && out.count <= 64 : outcome == LATSEFUR_BAD_VALUE && out.count == 0);
            EXPECT(is_marked(out.told + out.count, 65 - out.count));
            found += outcome == LATSEFUR_DONE;
            if (outcome == LATSEFUR_DONE)
                EXPECT(latsefur_sentence((uint8_t)kind, (uint8_t)number, out.told, out.count - 1, &out.count) == LATSEFUR_TOO_SMALL);
        }
        EXPECT(found == (kind < 8 ? many[kind] : 0));
    }
}

/* A record and a film say how much room they need, and stand at the front of a buffer that has it. */
static void test_told(void) {
    static const char *const refused_text = "A[zz]";
    static uint8_t marks[sizeof out.told];
    size_t count;
    int which;
    memset(marks, MARK, sizeof marks);
    for (which = 0; which < 2; which++) {
        uint8_t outcome = which ? call(FILM, file, file_len, octets_of("A[np]A"), 6) : call(EXPLAIN, file, file_len, octets_of(refused_text), 5);
        EXPECT(outcome == LATSEFUR_DONE);
        count = out.count;
        EXPECT(count > 6 && memcmp(out.told, which ? "GIF89a" : "{\"code", 6) == 0);
        EXPECT(is_marked(out.told + count, sizeof out.told - count));
        EXPECT(which || (out.told[count - 1] == '\n' && memchr(out.told, '\n', count) == out.told + count - 1));
        memset(&out, MARK, sizeof out);
        outcome = which ? latsefur_film(file, file_len, octets_of("A[np]A"), 6, 1, 0, out.told, count - 1, &out.count)
                        : latsefur_explain(file, file_len, octets_of(refused_text), 5, 1, out.told, count - 1, &out.count);
        EXPECT(outcome == LATSEFUR_TOO_SMALL && out.count == count && is_marked(out.told, sizeof out.told));
        outcome = which ? latsefur_film(file, file_len, octets_of("A[np]A"), 6, 1, 0, out.told, count, &out.count)
                        : latsefur_explain(file, file_len, octets_of(refused_text), 5, 1, out.told, count, &out.count);
        EXPECT(outcome == LATSEFUR_DONE && out.count == count && is_marked(out.told + count, sizeof out.told - count));
    }
    memset(&out, MARK, sizeof out);
    EXPECT(latsefur_film(file, file_len, octets_of("A"), 1, 0, 0, out.told, sizeof out.told, &out.count) == LATSEFUR_BAD_VALUE);
    EXPECT(latsefur_film(file, file_len, octets_of("A"), 1, 17, 0, out.told, sizeof out.told, &out.count) == LATSEFUR_BAD_VALUE);
    EXPECT(latsefur_film(file, file_len, octets_of("A"), 1, 1, 601, out.told, sizeof out.told, &out.count) == LATSEFUR_BAD_VALUE);
    EXPECT(latsefur_film(octets_of(""), 0, octets_of("A"), 1, 0, 0, out.told, 0, &out.count) == LATSEFUR_BAD_VALUE);
    EXPECT(latsefur_film(file, file_len, octets_of("A["), 2, 1, 1, out.told, 0, &out.count) == LATSEFUR_REFUSED);
    EXPECT(is_untouched());
    EXPECT(latsefur_explain(file, file_len, marks, 4097, 0, out.told, sizeof out.told, &out.count) == LATSEFUR_DONE);
    EXPECT(out.count > 10 && memchr(out.told, '\n', out.count) == out.told + out.count - 1);
}

static void expect_shown(uint64_t clock, latsefur_shown wanted) {
    const char *text = "[pt10o5]A[np]A";
    memset(&out, MARK, sizeof out);
    EXPECT(latsefur_shown_at(file, file_len, octets_of(text), strlen(text), clock, &out.shown) == LATSEFUR_DONE);
    EXPECT(out.shown.is_on == wanted.is_on);
    EXPECT(!wanted.is_on || (out.shown.page == wanted.page && out.shown.phase == wanted.phase));
}

static void test_clocks(void) {
    latsefur_shown first = {0, 0, 1}, last_of_first = {9, 0, 1}, off = {0, 0, 0}, second = {2, 1, 1}, again = {3, 0, 1};
    expect_shown(0, first);
    expect_shown(9, last_of_first);
    expect_shown(10, off);
    expect_shown(14, off);
    expect_shown(17, second);
    expect_shown(29, off);
    expect_shown(33, again);
    expect_shown(UINT64_MAX - UINT64_MAX % 30 + 3, again);
    EXPECT(latsefur_shown_at(file, file_len, octets_of("A"), 1, UINT64_MAX, &out.shown) == LATSEFUR_DONE);
    EXPECT(out.shown.is_on == 1 && out.shown.page == 0 && out.shown.phase == UINT64_MAX);
}

/* If several outcomes fit a call, the first in the order of docs/hosts.md is returned. */
static void test_order(void) {
    latsefur_text text = {octets_of("A"), 1};
    memset(&out, MARK, sizeof out);
    EXPECT(latsefur_check_all(octets_of(""), 0, &text, 1, out.verdicts, 0) == LATSEFUR_TOO_SMALL);
    EXPECT(latsefur_check_all(octets_of(""), 0, &text, 1, out.verdicts, 1) == LATSEFUR_NO_SIGN_FILE);
    EXPECT(latsefur_plane_at(octets_of(""), 0, octets_of("A["), 2, 0, 1, out.plane, 0) == LATSEFUR_NO_SIGN_FILE);
    EXPECT(latsefur_plane_at(file, file_len, octets_of("A["), 2, 0, 1, out.plane, 0) == LATSEFUR_REFUSED);
    EXPECT(latsefur_plane_of_page(file, file_len, octets_of("A["), 2, 1, 0, 1, out.plane, 0) == LATSEFUR_REFUSED);
    EXPECT(latsefur_plane_of_page(file, file_len, octets_of("A"), 1, 1, 0, 1, out.plane, 0) == LATSEFUR_NO_PAGE);
    EXPECT(latsefur_colours_of_page(file, file_len, octets_of("A["), 2, 1, 0, out.colours, 0) == LATSEFUR_REFUSED);
    EXPECT(latsefur_colours_of_page(file, file_len, octets_of("A"), 1, 1, 0, out.colours, 0) == LATSEFUR_NO_PAGE);
    EXPECT(is_untouched());
}

/* A picture must fit exactly, and what comes after it stays. */
static void test_sizes(void) {
    const uint8_t *text = octets_of("A[np]A");
    size_t plane = LATSEFUR_PLANE_SIZE(facts.width, facts.height), colours = LATSEFUR_COLOURS_SIZE(facts.width, facts.height);
    memset(&out, MARK, sizeof out);
    EXPECT(latsefur_plane_at(file, file_len, text, 6, 0, 1, out.plane, plane - 1) == LATSEFUR_TOO_SMALL);
    EXPECT(latsefur_plane_of_page(file, file_len, text, 6, 0, 0, 1, out.plane, plane - 1) == LATSEFUR_TOO_SMALL);
    EXPECT(latsefur_colours_at(file, file_len, text, 6, 0, out.colours, colours - 1) == LATSEFUR_TOO_SMALL);
    EXPECT(latsefur_colours_of_page(file, file_len, text, 6, 0, 0, out.colours, colours - 1) == LATSEFUR_TOO_SMALL);
    EXPECT(latsefur_plane_at(file, file_len, text, 6, 0, 1, out.plane, 0) == LATSEFUR_TOO_SMALL);
    EXPECT(latsefur_colours_at(file, file_len, text, 6, 0, out.colours, 0) == LATSEFUR_TOO_SMALL);
    EXPECT(latsefur_plane_of_page(file, file_len, text, 6, 2, 0, 1, out.plane, sizeof out.plane) == LATSEFUR_NO_PAGE);
    EXPECT(latsefur_colours_of_page(file, file_len, text, 6, 255, 0, out.colours, sizeof out.colours) == LATSEFUR_NO_PAGE);
    EXPECT(is_untouched());
    EXPECT(latsefur_plane_at(file, file_len, text, 6, 0, 1, out.plane, plane) == LATSEFUR_DONE);
    EXPECT(latsefur_colours_at(file, file_len, text, 6, 0, out.colours, colours) == LATSEFUR_DONE);
    EXPECT(is_marked(out.plane + plane, sizeof out.plane - plane));
    EXPECT(is_marked(out.colours + colours, sizeof out.colours - colours));
    memset(&out, MARK, sizeof out);
    EXPECT(latsefur_plane_of_page(file, file_len, text, 6, 1, 0, 1, out.plane, plane + 1) == LATSEFUR_DONE);
    EXPECT(latsefur_colours_of_page(file, file_len, text, 6, 1, 0, out.colours, colours + 1) == LATSEFUR_DONE);
    EXPECT(is_marked(out.plane + plane, sizeof out.plane - plane));
    EXPECT(is_marked(out.colours + colours, sizeof out.colours - colours));
}

/* Holds the planes of all colours to the colours, pixel by pixel: those of a clock, and of the page and phase that is shown then. */
static void expect_picture(const char *text, uint64_t clock, latsefur_shown shown) {
    static uint8_t plane[sizeof out.plane];
    size_t text_len = strlen(text), stride = (facts.width + 7u) / 8, octet, lit = 0, colours;
    unsigned colour, row, column;
    colours = LATSEFUR_COLOURS_SIZE(facts.width, facts.height);
    EXPECT(call(COLOURS_AT, octets_of(""), 0, octets_of(""), 0) == LATSEFUR_NO_SIGN_FILE);
    EXPECT(latsefur_colours_at(file, file_len, octets_of(text), text_len, clock, out.colours, colours) == LATSEFUR_DONE);
    for (colour = 0; colour <= 10; colour++) {
        EXPECT(latsefur_plane_at(file, file_len, octets_of(text), text_len, clock, (uint8_t)colour, plane, sizeof plane) == LATSEFUR_DONE);
        for (row = 0; row < facts.height; row++)
            for (column = 0; column < 8 * stride; column++) {
                int is_set = plane[row * stride + column / 8] >> (7 - column % 8) & 1;
                int has_colour = column < facts.width && out.colours[(size_t)row * facts.width + column] == colour;
                if (is_set != has_colour)
                    EXPECT(!"a bit of a plane is another than its pixel's colour");
                lit += (size_t)is_set;
            }
        if (shown.is_on) {
            memset(out.plane, MARK, sizeof out.plane);
            EXPECT(latsefur_plane_of_page(file, file_len, octets_of(text), text_len, shown.page, shown.phase, (uint8_t)colour,
                                          out.plane, sizeof out.plane) == LATSEFUR_DONE);
            EXPECT(memcmp(out.plane, plane, LATSEFUR_PLANE_SIZE(facts.width, facts.height)) == 0);
        }
    }
    EXPECT(lit == colours); /* each pixel has one colour of 0 to 9 */
    if (shown.is_on) {
        static uint8_t page[sizeof out.colours];
        EXPECT(latsefur_colours_of_page(file, file_len, octets_of(text), text_len, shown.page, shown.phase, page, colours) ==
               LATSEFUR_DONE);
        EXPECT(memcmp(page, out.colours, colours) == 0);
    } else {
        for (octet = 0; octet < colours; octet++)
            if (out.colours[octet] != 0)
                EXPECT(!"a pixel is lit in an off time");
    }
}

static void test_pictures(void) {
    latsefur_shown first = {0, 0, 1}, later = {7, 0, 1}, second = {2, 1, 1}, off = {0, 0, 0};
    expect_picture("[pt10o5][cf3]A[np][pb4]A", 0, first);
    expect_picture("[pt10o5][cf3]A[np][pb4]A", 12, off);
    expect_picture("[pt10o5][cf3]A[np][pb4]A", 17, second);
    expect_picture("[flt5o5]A[/fl]", 0, first);
    expect_picture("[flt5o5]A[/fl]", 7, later);
    expect_picture("", 0, first);
}

/* A text of 2^32 octets: pages of memory that are never written, so they take none. */
static void test_too_long(void) {
    size_t length = (size_t)1 << 32;
    uint8_t *text = mmap(NULL, length, PROT_READ, MAP_PRIVATE | MAP_ANONYMOUS | MAP_NORESERVE, -1, 0);
    latsefur_verdict *verdict = &out.verdict;
    int which, i;
    EXPECT(text != MAP_FAILED);
    EXPECT(call(CHECK, file, file_len, text, length) == LATSEFUR_TOO_LONG);
    for (i = 0; i < 2; i++) {
        EXPECT(verdict->outcome == LATSEFUR_TOO_LONG && verdict->pages == 0 && verdict->cycle == 0);
        EXPECT(verdict->code == 0 && verdict->at == 0);
        if (i == 0)
            EXPECT(call(CHECK_ALL, file, file_len, text, length) == LATSEFUR_DONE);
        verdict = &out.verdicts[0];
    }
    for (which = SHOWN_AT; which < EXPORTS; which++) {
        EXPECT(call((export)which, file, file_len, text, length) == LATSEFUR_TOO_LONG);
        EXPECT(is_untouched());
    }
    /* A text of one octet less is judged: no sign has a character of the number 0. */
    EXPECT(call(CHECK, file, file_len, text, length - 1) == LATSEFUR_REFUSED);
    EXPECT(out.verdict.code == LATSEFUR_CHARACTER_NOT_DEFINED && out.verdict.at == 0);
    munmap(text, length);
}

/* Refuses memory from each request on that a call makes, and counts the blocks that it hasn't given back. It gives how many requests the call
 * makes, which ends as it is wanted if none is refused. */
static size_t requests_until(export which, int is_small, uint8_t wanted) {
    size_t granted;
    uint8_t outcome;
    for (granted = 0;; granted++) {
        left = granted;
        refused = blocks = 0;
        is_watched = 1;
        outcome = is_small ? call_small(which, octets_of("A[np]A"), 6) : call(which, file, file_len, octets_of("A[np]A"), 6);
        is_watched = 0;
        EXPECT(blocks == 0);
        if (outcome == wanted)
            break;
        EXPECT(outcome == LATSEFUR_NO_MEMORY && refused > 0);
        EXPECT(is_untouched());
    }
    EXPECT(granted > 0);
    return granted;
}

/* Whether a buffer is large enough is looked at after the picture is made, with all its memory. */
static void test_memory(void) {
    int which;
    for (which = SIGN; which < EXPORTS; which++) {
        size_t granted = requests_until((export)which, 0, LATSEFUR_DONE);
        if (which >= PLANE_AT)
            EXPECT(requests_until((export)which, 1, LATSEFUR_TOO_SMALL) == granted);
    }
}

/* How often a call of `latsefur_check_all` on this many texts asks for memory. Each second text is refused. */
static size_t requests_of(size_t count) {
    static latsefur_text texts[MANY];
    static latsefur_verdict verdicts[MANY + 1];
    size_t i;
    uint8_t outcome;
    for (i = 0; i < MANY; i++) {
        texts[i].octets = octets_of("A[np]A[");
        texts[i].length = 6 + i % 2;
    }
    memset(verdicts, MARK, sizeof verdicts);
    left = SIZE_MAX;
    requests = 0;
    is_watched = 1;
    outcome = latsefur_check_all(file, file_len, texts, count, verdicts, MANY);
    is_watched = 0;
    EXPECT(outcome == LATSEFUR_DONE);
    for (i = 0; i < count; i++)
        EXPECT(verdicts[i].outcome == (i % 2 ? LATSEFUR_REFUSED : LATSEFUR_DONE));
    EXPECT(is_marked((uint8_t *)&verdicts[count], (MANY + 1 - count) * sizeof verdicts[0]));
    return requests;
}

/* The sign file is read once for all texts: more texts ask for no more memory. */
static void test_read_once(void) {
    EXPECT(requests_of(0) > 0);
    EXPECT(requests_of(3) == requests_of(0));
    EXPECT(requests_of(MANY) == requests_of(0));
}

/* The sign file with the number at each of these keys changed. */
static uint8_t *with_numbers(const char *const *keys, const char *const *numbers, int count, size_t *len) {
    uint8_t *copy = malloc(file_len + 64);
    const char *from = (const char *)file;
    size_t made = 0;
    int i;
    for (i = 0; i < count; i++) {
        const char *at = strstr(from, keys[i]);
        EXPECT(at != NULL);
        at += strlen(keys[i]);
        memcpy(copy + made, from, (size_t)(at - from));
        made += (size_t)(at - from);
        memcpy(copy + made, numbers[i], strlen(numbers[i]));
        made += strlen(numbers[i]);
        for (from = at; *from >= '0' && *from <= '9'; from++)
            ;
    }
    memcpy(copy + made, from, file_len - (size_t)(from - (const char *)file));
    *len = made + file_len - (size_t)(from - (const char *)file);
    return copy;
}

/* This text this many times, and another after it. */
static char *repeated(const char *text, size_t times, const char *last) {
    size_t len = strlen(text), i;
    char *made = malloc(len * times + strlen(last) + 1);
    for (i = 0; i < times; i++)
        memcpy(made + len * i, text, len);
    memcpy(made + len * times, last, strlen(last) + 1);
    return made;
}

static void expect_plane_of_page(const uint8_t *sign, size_t len, const char *text, uint8_t page, uint64_t phase, const uint8_t *wanted) {
    EXPECT(latsefur_plane_of_page(sign, len, octets_of(text), strlen(text), page, phase, 1, out.plane, sizeof out.plane) == LATSEFUR_DONE);
    EXPECT(memcmp(out.plane, wanted, LATSEFUR_PLANE_SIZE(LATSEFUR_MAX_WIDTH, LATSEFUR_MAX_HEIGHT)) == 0);
}

static void expect_plane_at(const uint8_t *sign, size_t len, const char *text, uint64_t clock, const uint8_t *wanted) {
    EXPECT(latsefur_plane_at(sign, len, octets_of(text), strlen(text), clock, 1, out.plane, sizeof out.plane) == LATSEFUR_DONE);
    EXPECT(memcmp(out.plane, wanted, LATSEFUR_PLANE_SIZE(LATSEFUR_MAX_WIDTH, LATSEFUR_MAX_HEIGHT)) == 0);
}

/* Every page of the longest list of pages, of which each second one is dark. */
static void expect_all_pages(const uint8_t *sign, size_t len, const uint8_t *lit, const uint8_t *dark) {
    char *pages = repeated("[cf1]A[np][np]", 127, "A");
    static uint8_t colours[LATSEFUR_COLOURS_SIZE(LATSEFUR_MAX_WIDTH, LATSEFUR_MAX_HEIGHT)];
    size_t i, count;
    int page;
    EXPECT(latsefur_check(sign, len, octets_of(pages), strlen(pages), &out.verdict) == LATSEFUR_DONE);
    EXPECT(out.verdict.pages == 255);
    for (page = 0; page < 255; page++) {
        expect_plane_of_page(sign, len, pages, (uint8_t)page, 0, page % 2 ? dark : lit);
        if (page % 17 == 0 || page == 253) {
            EXPECT(latsefur_colours_of_page(sign, len, octets_of(pages), strlen(pages), (uint8_t)page, 0, colours, sizeof colours) ==
                   LATSEFUR_DONE);
            for (count = i = 0; i < sizeof colours; i++)
                count += colours[i] != 0;
            EXPECT((count != 0) == (page % 2 == 0));
        }
    }
    free(pages);
}

/* The largest sign, the most pages, long texts, and clocks and phases beyond 32 bits. */
static void test_largest(void) {
    static const char *const keys[] = {"width = ", "height = ", "max_pages = "}, *const numbers[] = {"1024", "128", "255"};
    static uint8_t lit[sizeof out.plane], dark[sizeof out.plane];
    const char *flashing = "[flt10o10][cf1]A[/fl]", *turning = "[pt10o0][cf1]A[np]";
    char *text = repeated("[fo]", 100000, "[cf1]A");
    uint64_t late = (uint64_t)1 << 32; /* it is 16 more than a multiple of 20 */
    size_t len;
    uint8_t *sign = with_numbers(keys, numbers, 3, &len);
    EXPECT(latsefur_sign(sign, len, &out.facts) == LATSEFUR_DONE);
    EXPECT(out.facts.width == LATSEFUR_MAX_WIDTH && out.facts.height == LATSEFUR_MAX_HEIGHT && out.facts.max_pages == 255);
    EXPECT(latsefur_plane_at(sign, len, octets_of("[cf1]A"), 6, 0, 1, lit, sizeof lit) == LATSEFUR_DONE);
    EXPECT(latsefur_plane_at(sign, len, octets_of(""), 0, 0, 1, dark, sizeof dark) == LATSEFUR_DONE);
    EXPECT(memcmp(lit, dark, sizeof lit) != 0);
    expect_all_pages(sign, len, lit, dark);
    expect_plane_at(sign, len, text, 0, lit);
    expect_plane_at(sign, len, text, late, lit);
    EXPECT(latsefur_shown_at(sign, len, octets_of(text), strlen(text), late, &out.shown) == LATSEFUR_DONE && out.shown.phase == late);
    EXPECT(latsefur_check(sign, len, octets_of(text), strlen(text) - 2, &out.verdict) == LATSEFUR_REFUSED && out.verdict.at == 400000);
    expect_plane_at(sign, len, turning, late, dark);
    expect_plane_at(sign, len, turning, late + 10, lit);
    expect_plane_at(sign, len, flashing, late, dark);
    expect_plane_at(sign, len, flashing, late + 10, lit);
    expect_plane_of_page(sign, len, flashing, 0, late, dark);
    expect_plane_of_page(sign, len, flashing, 0, late + 10, lit);
    free(text);
    free(sign);
}

/* What a thread has of its own. The texts and the sign file are shared. */
typedef struct {
    unsigned wrong;
    latsefur_verdict verdict;
    uint8_t plane[LATSEFUR_PLANE_SIZE(LATSEFUR_MAX_WIDTH, LATSEFUR_MAX_HEIGHT)];
} own;

static void *judge_often(void *given) {
    own *mine = given;
    int i;
    for (i = 0; i < 20; i++) {
        mine->wrong += latsefur_check(file, file_len, octets_of("A[np]A"), 6, &mine->verdict) != LATSEFUR_DONE;
        mine->wrong += mine->verdict.pages != 2;
        memset(mine->plane, MARK, sizeof mine->plane);
        mine->wrong +=
            latsefur_plane_at(file, file_len, octets_of("A[np]A"), 6, 0, 1, mine->plane, sizeof mine->plane) != LATSEFUR_DONE;
        mine->wrong += memcmp(mine->plane, out.plane, sizeof mine->plane) != 0;
    }
    return NULL;
}

static void test_threads(void) {
    static own owns[THREADS];
    pthread_t threads[THREADS];
    int i;
    EXPECT(call(PLANE_AT, file, file_len, octets_of("A[np]A"), 6) == LATSEFUR_DONE);
    for (i = 0; i < THREADS; i++)
        EXPECT(pthread_create(&threads[i], NULL, judge_often, &owns[i]) == 0);
    for (i = 0; i < THREADS; i++) {
        EXPECT(pthread_join(threads[i], NULL) == 0);
        EXPECT(owns[i].wrong == 0);
    }
}

/* What is run on a thread with a painted stack, and how much of that it used. What the thread itself uses isn't counted. */
typedef struct {
    void (*run)(void *);
    void *given;
    const uint8_t *stack;
    size_t used;
} painted;

static void *run_painted(void *given) {
    painted *mine = given;
    const uint8_t *from = __builtin_frame_address(0), *at = mine->stack;
    mine->run(mine->given);
    while (*at == MARK)
        at++;
    mine->used = (size_t)(from - at);
    return NULL;
}

static size_t stack_used(void (*run)(void *), void *given) {
    painted mine = {run, given, NULL, 0};
    pthread_attr_t ours;
    pthread_t thread;
    uint8_t *stack = mmap(NULL, PAINTED, PROT_READ | PROT_WRITE, MAP_PRIVATE | MAP_ANONYMOUS, -1, 0);
    EXPECT(stack != MAP_FAILED && pthread_attr_init(&ours) == 0 && pthread_attr_setstack(&ours, stack, PAINTED) == 0);
    memset(stack, MARK, PAINTED);
    mine.stack = stack;
    EXPECT(pthread_create(&thread, &ours, run_painted, &mine) == 0);
    EXPECT(pthread_join(thread, NULL) == 0);
    pthread_attr_destroy(&ours);
    munmap(stack, PAINTED);
    return mine.used;
}

/* A call that reads a sign file; the last one makes a controller. */
typedef struct {
    export which;
    const uint8_t *sign;
    size_t sign_len;
    uint8_t outcome;
} small_call;

static void call_there(void *given) {
    small_call *mine = given;
    static latsefur_controller made;
    if (mine->which < EXPORTS) {
        mine->outcome = call(mine->which, mine->sign, mine->sign_len, octets_of("A[np]A"), 6);
    } else {
        mine->outcome = latsefur_controller_new(mine->sign, mine->sign_len, &made);
        latsefur_controller_free(&made);
    }
}

/* The outcome of each call that reads a sign file must be this one, and none may use more stack than latsefur.h asks for. */
static void expect_on_stack(const uint8_t *sign, size_t sign_len, uint8_t outcome) {
    small_call mine = {SIGN, sign, sign_len, MARK};
    int which;
    for (which = SIGN; which <= EXPORTS; which++) {
        mine.which = (export)which;
        EXPECT(stack_used(call_there, &mine) <= STACK);
        EXPECT(mine.outcome == outcome);
    }
}

/* The calls that read no sign file, each by a number, in the groups of docs/hosts.md. */
typedef enum {
    FRAME, COLOURS, HELD_PLANE, HELD_COLOURS, DRAWINGS,
    REQUEST = DRAWINGS, SET_MULTI, SET_OWNER, SET_PRIORITY, SET_BEACON, SET_PIXEL_SERVICE, VALIDATE, WORK, ACTIVATE, SET_END, SET_DEFAULT, TICK,
    CLEAR, NEXT_CHANGE, RESTORE, HELD_CHECK, JUDGINGS,
    REPORT = JUDGINGS, DEFAULTS, STEPS, REVISION, SAVE_SIZE, SAVE, END, ROW, HELD_SIGN, HELD_TABLE, HELD_FONT, MESSAGE_CRC, LIBRARY_VERSION, FREE, HELD_CALLS
} held_call;

static struct {
    latsefur_controller held;
    held_call which;
    const uint8_t *text;
    size_t text_len;
    uint8_t code[12], outcome;
    latsefur_reply reply;
    latsefur_report_facts report;
    latsefur_default_facts defaults;
    latsefur_message row;
    latsefur_table_facts table;
    latsefur_font_facts font;
    uint64_t steps;
    uint32_t tenths;
    uint8_t octets[4096], owner[127], fault;
    size_t size, count;
} there;

/* A saved state: there is room for that of the largest table. */
static uint8_t saved[1100000];

/* A text with tags of each kind; it is only judged and drawn, since a small table may have no room for it. */
static const char tagged[] = "[jl3][jp3][cf1][pb0][fo1][sc1]A[/sc][pt20o5][hc41][nl1]A[np][tr1,1,5,5][flt2o2]A[/fl][[";

static uint8_t draw_held(void) {
    latsefur_controller *held = &there.held;
    const uint8_t *text = octets_of("[sc1]A[/sc][np][flt2o2]A[/fl]");
    switch (there.which) {
    case FRAME:
        return latsefur_frame(held, 1, &out.shown, out.plane, sizeof out.plane);
    case COLOURS:
        return latsefur_colours(held, &out.shown, out.colours, sizeof out.colours);
    case HELD_PLANE:
        return latsefur_held_plane_of_page(held, text, 29, 1, 0, 1, out.plane, sizeof out.plane);
    default:
        return latsefur_held_colours_of_page(held, text, 29, 1, 0, out.colours, sizeof out.colours);
    }
}

static uint8_t judge_held(void) {
    latsefur_controller *held = &there.held;
    switch (there.which) {
    case REQUEST:
        return latsefur_request(held, 3, 1, 6, &there.reply);
    case SET_MULTI:
        return latsefur_set_multi(held, 3, 1, there.text, there.text_len, &there.reply);
    case SET_OWNER:
        return latsefur_set_owner(held, 3, 1, there.text, 0, &there.reply);
    case SET_PRIORITY:
        return latsefur_set_priority(held, 3, 1, 9, &there.reply);
    case SET_BEACON:
        return latsefur_set_beacon(held, 3, 1, 0, &there.reply);
    case SET_PIXEL_SERVICE:
        return latsefur_set_pixel_service(held, 3, 1, 0, &there.reply);
    case VALIDATE:
        return latsefur_request(held, 3, 1, 7, &there.reply);
    case WORK:
        return latsefur_work(held, &there.reply);
    case ACTIVATE:
        return latsefur_activate(held, there.code, 12, &there.reply);
    case SET_END:
        return latsefur_set_end(held, there.code + 3, 5, &there.reply);
    case SET_DEFAULT:
        return latsefur_set_default(held, 5, 7, &there.reply);
    case TICK:
        return latsefur_tick(held, 600, &there.reply);
    case CLEAR:
        return latsefur_clear(held, &there.reply);
    case NEXT_CHANGE:
        return latsefur_next_change(held, UINT32_MAX, &there.tenths);
    case RESTORE:
        EXPECT(latsefur_save(held, saved, sizeof saved, &there.count) == LATSEFUR_DONE);
        return latsefur_restore(held, saved, there.count, &there.fault);
    default:
        latsefur_held_check(held, octets_of(tagged), sizeof tagged - 1, &out.verdict);
        return LATSEFUR_DONE;
    }
}

static uint8_t tell_held(void) {
    latsefur_controller *held = &there.held;
    switch (there.which) {
    case REPORT:
        return latsefur_report(held, &there.report);
    case DEFAULTS:
        return latsefur_defaults(held, &there.defaults);
    case STEPS:
        return latsefur_steps(held, &there.steps);
    case REVISION:
        return latsefur_revision(held, &there.steps);
    case SAVE_SIZE:
        return latsefur_save_size(held, &there.size);
    case SAVE:
        return latsefur_save(held, saved, sizeof saved, &there.count);
    case END:
        return latsefur_end(held, there.code, 5);
    case ROW:
        return latsefur_row(held, 3, 1, &there.row, there.octets, sizeof there.octets, there.owner, sizeof there.owner);
    case HELD_SIGN:
        return latsefur_held_sign(held, &out.facts);
    case HELD_TABLE:
        return latsefur_held_table(held, &there.table);
    case HELD_FONT:
        return latsefur_held_font(held, 1, &there.font);
    case MESSAGE_CRC:
        return latsefur_message_crc(there.text, there.text_len, 0, 0) == 0;
    case LIBRARY_VERSION:
        return latsefur_version() == 0;
    default:
        latsefur_controller_free(held);
        return LATSEFUR_DONE;
    }
}

static void call_held(void *given) {
    (void)given;
    there.outcome = there.which < DRAWINGS ? draw_held() : there.which < JUDGINGS ? judge_held() : tell_held();
}

/* The calls of a group on the controller, in their order. None may use more stack than this. */
static void expect_held_on_stack(held_call first, held_call behind, size_t most) {
    size_t used;
    int which;
    for (which = first; which < (int)behind; which++) {
        there.which = (held_call)which;
        used = stack_used(call_held, NULL);
        EXPECT(used <= most + SANITIZER_STACK && used <= HELD_STACK + SANITIZER_STACK);
        EXPECT(there.outcome == LATSEFUR_DONE);
    }
}

/* Each group of calls keeps to its stack, and so to what latsefur.h asks for: while the message is shown that the commands write, and after it. */
static void test_held_stack(void) {
    uint16_t crc;
    uint8_t code[12] = {0, 1, 255, 3, 0, 1, 0, 0, 127, 0, 0, 1};
    EXPECT(latsefur_controller_new(file, file_len, &there.held) == LATSEFUR_DONE);
    there.text_len = number_at("\nbytes = ") >= 9 ? 9 : 1;
    there.text = octets_of(there.text_len == 9 ? "[flt3o2]A" : "A");
    crc = latsefur_message_crc(there.text, there.text_len, 0, 0);
    code[6] = (uint8_t)(crc >> 8);
    code[7] = (uint8_t)crc;
    memcpy(there.code, code, sizeof code);
    expect_held_on_stack(REQUEST, SET_END, JUDGING);
    EXPECT(there.reply.kind == LATSEFUR_REPLY_SHOWN);
    expect_held_on_stack(FRAME, DRAWINGS, DRAWING);
    expect_held_on_stack(SET_END, CLEAR, JUDGING);
    EXPECT(there.reply.kind == LATSEFUR_REPLY_ENDED);
    expect_held_on_stack(CLEAR, JUDGINGS, JUDGING);
    expect_held_on_stack(REPORT, HELD_CALLS, TELLING);
}

static char *put_name(char *at, int parts) {
    int part;
    for (part = 0; part < parts; part++)
        at += sprintf(at, part < parts - 1 ? "a." : "a");
    return at;
}

/* A line by which tables nest so deep: by a name of so many parts, and by names of as many in tables in one another. */
static char *put_tables(char *at, int parts, int depth) {
    int count;
    at += sprintf(at, "b.");
    at = put_name(at, parts - 1);
    for (count = 0; count < depth; count++) {
        at += sprintf(at, " = {");
        at = put_name(at, parts);
    }
    at += sprintf(at, " = 1");
    for (count = 0; count < depth; count++)
        *at++ = '}';
    *at++ = '\n';
    return at;
}

/* Arrays of tables in one another by names of up to so many parts, and such a line in the innermost. */
static char *put_nested(char *at, int parts, int depth) {
    int count;
    for (count = 1; count <= parts; count++) {
        at += sprintf(at, "\n[[");
        at = put_name(at, count);
        at += sprintf(at, "]]");
    }
    *at++ = '\n';
    return put_tables(at, parts, depth);
}

/* The stack that latsefur.h asks for is enough: for the sign file, also with tables that nobody looks at and that nest as deep as they
 * may, with their line twice, which is refused deep inside, and for texts that nest too deep, of which one has 60,000 brackets. */
static void test_stack(void) {
    uint8_t *nested = malloc(file_len + (1 << 16));
    char *behind = (char *)nested + file_len, *end;
    EXPECT(nested != NULL);
    memcpy(nested, file, file_len);
    expect_on_stack(file, file_len, LATSEFUR_DONE);
    end = put_nested(behind, 4, 16);
    expect_on_stack(nested, file_len + (size_t)(end - behind), LATSEFUR_DONE);
    end = put_tables(end, 4, 16);
    expect_on_stack(nested, file_len + (size_t)(end - behind), LATSEFUR_NO_SIGN_FILE);
    end = put_nested(behind, 4, 17);
    expect_on_stack(nested, file_len + (size_t)(end - behind), LATSEFUR_NO_SIGN_FILE);
    end = put_nested(behind, 80, 80);
    expect_on_stack(nested, file_len + (size_t)(end - behind), LATSEFUR_NO_SIGN_FILE);
    memcpy(nested, "a = ", 4);
    memset(nested + 4, '[', 60000);
    expect_on_stack(nested, 60004, LATSEFUR_NO_SIGN_FILE);
    free(nested);
}

/* What a controller tells of its sign is what the sign file says. */
static void use_held_sign(latsefur_controller *held) {
    latsefur_sign_facts told = {0};
    latsefur_table_facts table = {0};
    latsefur_font_facts font = {0};
    int number, fonts = 0;
    EXPECT(latsefur_held_sign(held, &told) == LATSEFUR_DONE && told.width == facts.width && told.height == facts.height);
    EXPECT(told.max_pages == facts.max_pages && told.classic == facts.classic);
    EXPECT(latsefur_held_table(held, &table) == LATSEFUR_DONE && table.slots == number_at("\nslots = ") && table.bytes == number_at("\nbytes = "));
    EXPECT(table.max_string == number_at("\nmax_string = ") && table.permanents == count_of("[[permanent]]"));
    for (number = 0; number < 256; number++) {
        uint8_t outcome = latsefur_held_font(held, (uint8_t)number, &font);
        EXPECT(outcome == LATSEFUR_DONE || outcome == LATSEFUR_NO_FONT);
        if (outcome == LATSEFUR_DONE)
            EXPECT(font.number == number && font.height >= 1 && font.height <= 64);
        fonts += outcome == LATSEFUR_DONE;
    }
    EXPECT(fonts == count_of("[[font]]"));
}

/* A text on the sign that is held: the verdict and the pictures of the calls that take the sign file. */
static void expect_held(latsefur_controller *held, const char *text, uint8_t page, uint8_t wanted) {
    static outputs same;
    size_t text_len = strlen(text), plane = LATSEFUR_PLANE_SIZE(facts.width, facts.height), colours;
    const uint8_t *octets = octets_of(text);
    colours = LATSEFUR_COLOURS_SIZE(facts.width, facts.height);
    memset(&same, MARK, sizeof same);
    EXPECT(latsefur_held_check(held, octets, text_len, &same.verdict) == same.verdict.outcome);
    EXPECT(latsefur_held_plane_of_page(held, octets, text_len, page, 3, 1, same.plane, sizeof same.plane) == wanted);
    EXPECT(latsefur_held_colours_of_page(held, octets, text_len, page, 3, same.colours, sizeof same.colours) == wanted);
    is_watched = 0;
    EXPECT(call(CHECK, file, file_len, octets, text_len) == same.verdict.outcome);
    EXPECT(out.verdict.pages == same.verdict.pages && out.verdict.cycle == same.verdict.cycle);
    EXPECT(out.verdict.code == same.verdict.code && out.verdict.at == same.verdict.at);
    memset(&out, MARK, sizeof out);
    EXPECT(latsefur_plane_of_page(file, file_len, octets, text_len, page, 3, 1, out.plane, sizeof out.plane) == wanted);
    EXPECT(latsefur_colours_of_page(file, file_len, octets, text_len, page, 3, out.colours, sizeof out.colours) == wanted);
    is_watched = 1;
    EXPECT(memcmp(out.plane, same.plane, sizeof out.plane) == 0 && memcmp(out.colours, same.colours, sizeof out.colours) == 0);
    if (wanted == LATSEFUR_DONE) {
        memset(&same, MARK, sizeof same);
        EXPECT(latsefur_held_plane_of_page(held, octets, text_len, page, 3, 1, same.plane, plane - 1) == LATSEFUR_TOO_SMALL);
        EXPECT(latsefur_held_colours_of_page(held, octets, text_len, page, 3, same.colours, colours - 1) == LATSEFUR_TOO_SMALL);
        EXPECT(memcmp(&same, &marked, sizeof same) == 0);
    }
}

static void use_held_texts(latsefur_controller *held) {
    expect_held(held, "[cf3]A[np][flt2o2]A", 0, LATSEFUR_DONE);
    expect_held(held, "[cf3]A[np][flt2o2]A", 1, LATSEFUR_DONE);
    expect_held(held, "[cf3]A[np][flt2o2]A", 2, LATSEFUR_NO_PAGE);
    expect_held(held, "A[zz]", 0, LATSEFUR_REFUSED);
    expect_held(held, "", 0, LATSEFUR_DONE);
}

/* The next change of a message of one page that flashes: 3 tenths lit, 2 dark, and shown for a minute. */
static void use_next_change(latsefur_controller *held) {
    static const uint32_t wanted[] = {3, 2, 1, 2, 1};
    latsefur_reply reply = {0};
    const uint8_t *text = octets_of("[flt3o2]A");
    uint16_t crc = latsefur_message_crc(text, 9, 0, 0);
    uint8_t code[12] = {0, 1, 255, 3, 0, 1, (uint8_t)(crc >> 8), (uint8_t)crc, 127, 0, 0, 1};
    uint32_t tenths, clock;
    latsefur_request(held, 3, 1, 6, &reply);
    latsefur_set_multi(held, 3, 1, text, 9, &reply);
    latsefur_request(held, 3, 1, 7, &reply);
    latsefur_work(held, &reply);
    EXPECT(latsefur_activate(held, code, 12, &reply) == LATSEFUR_DONE && reply.kind == LATSEFUR_REPLY_SHOWN);
    for (clock = 0; clock < 600; clock++) {
        EXPECT(latsefur_next_change(held, 600, &tenths) == LATSEFUR_DONE && tenths == wanted[clock % 5]);
        EXPECT(latsefur_next_change(held, 1, &tenths) == LATSEFUR_DONE && tenths == 1);
        EXPECT(latsefur_next_change(held, 0, &tenths) == LATSEFUR_DONE && tenths == 0);
        EXPECT(latsefur_tick(held, 1, &reply) == LATSEFUR_DONE);
    }
    EXPECT(reply.kind == LATSEFUR_REPLY_ENDED); /* blank 1 is shown now, without end */
    EXPECT(latsefur_next_change(held, UINT32_MAX, &tenths) == LATSEFUR_DONE && tenths == UINT32_MAX);
    EXPECT(latsefur_clear(held, &reply) == LATSEFUR_DONE);
}

/* A controller on the sign file: all commands and questions, with a message that is shown for a minute. */
static void use_controller(latsefur_controller *held) {
    static uint8_t octets[4096], owner[127];
    const uint8_t *text = octets_of("A");
    uint16_t crc = latsefur_message_crc(text, 1, 0, 0);
    uint8_t code[12] = {0, 1, 255, 3, 0, 1, (uint8_t)(crc >> 8), (uint8_t)crc, 127, 0, 0, 1};
    size_t plane = LATSEFUR_PLANE_SIZE(facts.width, facts.height), colours = LATSEFUR_COLOURS_SIZE(facts.width, facts.height);
    uint32_t tenths = 0;
    latsefur_reply reply = {0};
    latsefur_report_facts report = {0};
    latsefur_default_facts defaults = {0};
    latsefur_message row = {0};
    latsefur_shown shown = {0};
    uint64_t steps = 0;
    EXPECT(latsefur_clear(held, &reply) == LATSEFUR_DONE && reply.kind == LATSEFUR_REPLY_DONE);
    EXPECT(latsefur_request(held, 3, 1, 6, &reply) == LATSEFUR_DONE && reply.kind == LATSEFUR_REPLY_DONE);
    EXPECT(latsefur_set_multi(held, 3, 1, text, 1, &reply) == LATSEFUR_DONE);
    EXPECT(latsefur_set_owner(held, 3, 1, text, 0, &reply) == LATSEFUR_DONE && reply.kind == LATSEFUR_REPLY_DONE);
    EXPECT(latsefur_set_priority(held, 3, 1, 9, &reply) == LATSEFUR_DONE && reply.kind == LATSEFUR_REPLY_DONE);
    EXPECT(latsefur_set_beacon(held, 3, 1, 2, &reply) == LATSEFUR_DONE);
    EXPECT(reply.kind == LATSEFUR_REPLY_REFUSED && reply.code == 5);
    EXPECT(latsefur_set_pixel_service(held, 3, 1, 0, &reply) == LATSEFUR_DONE && reply.kind == LATSEFUR_REPLY_DONE);
    EXPECT(latsefur_request(held, 3, 1, 7, &reply) == LATSEFUR_DONE && reply.kind == LATSEFUR_REPLY_DONE);
    EXPECT(latsefur_work(held, &reply) == LATSEFUR_DONE);
    EXPECT(reply.kind == LATSEFUR_REPLY_WORKED && reply.number == 1 && reply.status == 4);
    EXPECT(latsefur_activate(held, code, 11, &reply) == LATSEFUR_BAD_LENGTH && reply.kind == LATSEFUR_REPLY_WORKED);
    EXPECT(latsefur_activate(held, code, 12, &reply) == LATSEFUR_DONE && reply.kind == LATSEFUR_REPLY_SHOWN);
    EXPECT(latsefur_set_end(held, code, 4, &reply) == LATSEFUR_BAD_LENGTH);
    EXPECT(latsefur_set_end(held, code + 3, 5, &reply) == LATSEFUR_DONE && reply.kind == LATSEFUR_REPLY_DONE);
    EXPECT(latsefur_set_default(held, 0, 1, &reply) == LATSEFUR_NO_DEFAULT);
    EXPECT(latsefur_set_default(held, 10, 1, &reply) == LATSEFUR_NO_DEFAULT);
    EXPECT(latsefur_set_default(held, 5, 7, &reply) == LATSEFUR_DONE && reply.kind == LATSEFUR_REPLY_DONE);
    EXPECT(latsefur_tick(held, 599, &reply) == LATSEFUR_DONE && reply.kind == LATSEFUR_REPLY_TICKED);
    EXPECT(latsefur_report(held, &report) == LATSEFUR_DONE);
    EXPECT(report.clock == 599 && report.shown_memory == 3 && report.shown_number == 1 && report.crc == crc && report.remaining == 1);
    EXPECT(report.requester == 0x7f000001 && report.priority == 9 && report.mode == 8 && report.used == 1);
    EXPECT(latsefur_defaults(held, &defaults) == LATSEFUR_DONE && defaults.page_off == 7);
    EXPECT(latsefur_steps(held, &steps) == LATSEFUR_DONE && steps > 0);
    EXPECT(latsefur_row(held, 3, 1, &row, octets, 0, owner, 127) == LATSEFUR_TOO_SMALL && row.status == 0);
    EXPECT(latsefur_row(held, 3, 1, &row, octets, 1, owner, 0) == LATSEFUR_DONE);
    EXPECT(row.multi == 1 && octets[0] == 'A' && row.owner == 0 && row.crc == crc && row.status == 4 && row.priority == 9);
    EXPECT(latsefur_row(held, 4, 1, &row, octets, 0, owner, 0) == LATSEFUR_REFUSED && row.code == 1 && row.multi == 0);
    memset(out.plane, MARK, sizeof out.plane);
    EXPECT(latsefur_frame(held, 1, &shown, out.plane, plane - 1) == LATSEFUR_TOO_SMALL);
    EXPECT(is_marked(out.plane, sizeof out.plane));
    EXPECT(latsefur_frame(held, 1, &shown, out.plane, plane) == LATSEFUR_DONE);
    EXPECT(is_marked(out.plane + plane, sizeof out.plane - plane));
    memset(&out, MARK, sizeof out);
    EXPECT(latsefur_colours(held, &out.shown, out.colours, colours - 1) == LATSEFUR_TOO_SMALL && is_untouched());
    EXPECT(latsefur_colours(held, &out.shown, out.colours, colours) == LATSEFUR_DONE);
    EXPECT(out.shown.page == shown.page && out.shown.phase == shown.phase && out.shown.is_on == shown.is_on);
    EXPECT(is_marked(out.colours + colours, sizeof out.colours - colours));
    EXPECT(latsefur_next_change(held, 9, &tenths) == LATSEFUR_DONE && tenths == 1);
    EXPECT(latsefur_tick(held, 1, &reply) == LATSEFUR_DONE && reply.kind == LATSEFUR_REPLY_ENDED);
}

static int is_same_report(const latsefur_report_facts *one, const latsefur_report_facts *other) {
    return one->clock == other->clock && one->used == other->used && one->free == other->free && one->crc == other->crc && one->mode == other->mode &&
           one->shown_number == other->shown_number && one->remaining == other->remaining && one->activate == other->activate;
}

/* A state that is saved is restored, as it was. What is cut off is refused, and changes nothing. */
static void use_saved(latsefur_controller *held) {
    latsefur_reply reply = {0};
    latsefur_report_facts before = {0}, after = {0};
    uint64_t first = 0, second = 0;
    size_t size = 0, count = 0, cut;
    uint8_t fault = MARK, code[5] = {0};
    EXPECT(latsefur_save_size(held, &size) == LATSEFUR_DONE && size <= sizeof saved);
    memset(saved, MARK, sizeof saved);
    EXPECT(latsefur_save(held, saved, size - 1, &count) == LATSEFUR_TOO_SMALL && count == 0 && is_marked(saved, size));
    EXPECT(latsefur_save(held, saved, size, &count) == LATSEFUR_DONE && count > 0 && count <= size);
    EXPECT(is_marked(saved + count, sizeof saved - count));
    EXPECT(latsefur_report(held, &before) == LATSEFUR_DONE && latsefur_revision(held, &first) == LATSEFUR_DONE);
    for (cut = 0; cut < count && cut < 200; cut++)
        EXPECT(latsefur_restore(held, saved, cut, &fault) == LATSEFUR_REFUSED && fault == 1);
    saved[count - 1] ^= 1;
    EXPECT(latsefur_restore(held, saved, count, &fault) == LATSEFUR_REFUSED && fault == 3);
    saved[count - 1] ^= 1;
    EXPECT(latsefur_report(held, &after) == LATSEFUR_DONE && is_same_report(&before, &after));
    EXPECT(latsefur_tick(held, 3, &reply) == LATSEFUR_DONE && latsefur_revision(held, &second) == LATSEFUR_DONE && second == first);
    EXPECT(latsefur_clear(held, &reply) == LATSEFUR_DONE && latsefur_revision(held, &second) == LATSEFUR_DONE && second == first + 1);
    EXPECT(latsefur_restore(held, saved, count, &fault) == LATSEFUR_DONE && fault == 0);
    EXPECT(latsefur_report(held, &after) == LATSEFUR_DONE && is_same_report(&before, &after));
    EXPECT(latsefur_end(held, code, 4) == LATSEFUR_TOO_SMALL && code[0] == 0);
    EXPECT(latsefur_end(held, code, 5) == LATSEFUR_DONE && code[0] == 3);
}

/* A handle without a controller answers so, and changes nothing. */
static void expect_no_controller(latsefur_controller *held) {
    latsefur_reply reply = {0};
    latsefur_report_facts report = {0};
    latsefur_message row = {0};
    latsefur_table_facts table = {0};
    latsefur_font_facts font = {0};
    uint32_t tenths = 7;
    uint64_t steps = 7;
    size_t count = 7;
    uint8_t code[12] = {0}, fault = 7;
    memset(&out, MARK, sizeof out);
    EXPECT(latsefur_work(held, &reply) == LATSEFUR_NO_CONTROLLER && latsefur_tick(held, 1, &reply) == LATSEFUR_NO_CONTROLLER);
    EXPECT(latsefur_activate(held, code, 12, &reply) == LATSEFUR_NO_CONTROLLER && reply.kind == 0);
    EXPECT(latsefur_report(held, &report) == LATSEFUR_NO_CONTROLLER && report.remaining == 0);
    EXPECT(latsefur_row(held, 3, 1, &row, out.plane, 10, out.colours, 10) == LATSEFUR_NO_CONTROLLER && row.status == 0);
    EXPECT(latsefur_frame(held, 1, &out.shown, out.plane, sizeof out.plane) == LATSEFUR_NO_CONTROLLER);
    EXPECT(latsefur_colours(held, &out.shown, out.colours, sizeof out.colours) == LATSEFUR_NO_CONTROLLER);
    EXPECT(latsefur_next_change(held, 1, &tenths) == LATSEFUR_NO_CONTROLLER && tenths == 7);
    EXPECT(latsefur_held_sign(held, &out.facts) == LATSEFUR_NO_CONTROLLER && latsefur_held_table(held, &table) == LATSEFUR_NO_CONTROLLER);
    EXPECT(latsefur_held_font(held, 1, &font) == LATSEFUR_NO_CONTROLLER && font.number == 0 && table.slots == 0);
    EXPECT(latsefur_held_check(held, code, 1, &out.verdict) == LATSEFUR_NO_CONTROLLER);
    EXPECT(latsefur_save(held, code, 12, &count) == LATSEFUR_NO_CONTROLLER && latsefur_save_size(held, &count) == LATSEFUR_NO_CONTROLLER);
    EXPECT(latsefur_restore(held, code, 12, &fault) == LATSEFUR_NO_CONTROLLER && latsefur_revision(held, &steps) == LATSEFUR_NO_CONTROLLER);
    EXPECT(latsefur_end(held, code, 5) == LATSEFUR_NO_CONTROLLER && count == 7 && fault == 7 && steps == 7);
    EXPECT(latsefur_held_plane_of_page(held, code, 0, 0, 0, 1, out.plane, sizeof out.plane) == LATSEFUR_NO_CONTROLLER);
    EXPECT(latsefur_held_colours_of_page(held, code, 0, 0, 0, out.colours, sizeof out.colours) == LATSEFUR_NO_CONTROLLER);
    EXPECT(is_untouched());
    latsefur_controller_free(held);
}

/* Refuses memory to `latsefur_controller_new` from each request on, and sees that no other call asks for any. */
static void test_controller(void) {
    latsefur_controller held = {0};
    latsefur_report_facts report = {0};
    size_t granted, kept;
    uint8_t outcome, *bad;
    expect_no_controller(&held);
    for (granted = 0;; granted++) {
        left = granted;
        refused = blocks = 0;
        is_watched = 1;
        outcome = latsefur_controller_new(file, file_len, &held);
        is_watched = 0;
        if (outcome == LATSEFUR_DONE)
            break;
        EXPECT(outcome == LATSEFUR_NO_MEMORY && refused > 0 && blocks == 0);
        expect_no_controller(&held);
    }
    kept = blocks;
    EXPECT(kept > 0);
    requests = 0;
    is_watched = 1;
    use_held_sign(&held);
    use_held_texts(&held);
    if (number_at("\nbytes = ") >= 9)
        use_next_change(&held);
    use_controller(&held);
    use_controller(&held);
    use_saved(&held);
    EXPECT(requests == 0 && blocks == kept);
    /* A controller that can't be made leaves the one that there is. */
    left = 0;
    EXPECT(latsefur_controller_new(file, file_len, &held) == LATSEFUR_NO_MEMORY && blocks == kept);
    left = SIZE_MAX;
    EXPECT(latsefur_controller_new(octets_of("width"), 5, &held) == LATSEFUR_NO_SIGN_FILE && blocks == kept);
    EXPECT(latsefur_report(&held, &report) == LATSEFUR_DONE && report.used == 1);
    is_watched = 0;
    bad = with_zero("\nslots = ");
    is_watched = 1;
    EXPECT(latsefur_controller_new(bad, file_len, &held) == LATSEFUR_TABLE_FAULT && blocks == kept);
    /* A new one in its place, and the end. */
    EXPECT(latsefur_controller_new(file, file_len, &held) == LATSEFUR_DONE && blocks == kept);
    EXPECT(latsefur_report(&held, &report) == LATSEFUR_DONE && report.used == 0 && report.clock == 0);
    latsefur_controller_free(&held);
    EXPECT(blocks == 0);
    is_watched = 0;
    free(bad);
    expect_no_controller(&held);
}

static void read_file(void) {
    FILE *stream = fopen(path, "rb");
    EXPECT(stream != NULL);
    file = malloc((1 << 20) + 1);
    file_len = fread(file, 1, 1 << 20, stream);
    EXPECT(file_len > 0 && file_len < 1 << 20);
    file[file_len] = 0; /* an end for strstr */
    fclose(stream);
}

int main(int count, char **paths) {
    int i;
    memset(&marked, MARK, sizeof marked);
    path = "";
    EXPECT(latsefur_version() == LATSEFUR_VERSION);
    for (i = 1; i < count; i++) {
        path = paths[i];
        read_file();
        EXPECT(latsefur_sign(file, file_len, &facts) == LATSEFUR_DONE);
        EXPECT(facts.width >= 1 && facts.width <= LATSEFUR_MAX_WIDTH && facts.height >= 1 && facts.height <= LATSEFUR_MAX_HEIGHT);
        EXPECT(facts.max_pages >= 2 && facts.classic <= 1);
        test_sign_files();
        test_verdicts();
        test_refused();
        test_check_all();
        test_told();
        test_sentences();
        test_clocks();
        test_order();
        test_sizes();
        test_pictures();
        test_too_long();
        test_memory();
        test_read_once();
        test_largest();
        test_stack();
        test_held_stack();
        test_threads();
        test_controller();
        free(file);
    }
    printf("%lu\n", checks);
    return 0;
}

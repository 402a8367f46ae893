/* Latsefur for hosts in C: what a roadside message sign says to a message, and the pages that it shows.
 *
 * A host keeps two things as octets: the sign file, which describes the sign (docs/signs.md), and the texts, which are messages in
 * MULTI, the mark-up of NTCIP 1203 v03 (docs/multi.md). Each call of the first part reads the sign file, and all but the first a text or
 * several. The second part has a controller that the host holds: it keeps messages and shows them. A call answers with one of the outcomes,
 * and writes what it found where the host asked for it. hosts/c/README.md has first programs, hosts/README.md the times of calls.
 *
 * What the host keeps, for every call:
 *
 * - No pointer is NULL, even with a length of 0, and none of those in a latsefur_text is. An empty text may be "" with the length 0.
 * - Each pointer is aligned for its type, and the octets or structures of its whole length may be read; those that a call writes may
 *   be written too. All of them have been given some value before the call, as by `= {0}`, or `= {}` in C++.
 * - What a call writes overlaps nothing else that is handed to it. What it reads stays the same until it returns.
 * - malloc, realloc and free come from one allocator, align as C asks, and return.
 * - The thread has 64 KiB of stack left for a call that takes a sign file, and 8 KiB for any other. What malloc, realloc and free take is
 *   part of it. That serves for every text, and for every sign file, since one that nests too deep isn't read.
 * - No call is made from a signal handler, or from the forked child of a process that had threads. None is left by longjmp, or by cancelling
 *   its thread.
 * - No other function of the program has a name that begins with latsefur_ or rattle_.
 *
 * What the library keeps:
 *
 * - It holds no pointer after a call and has no state between calls, but for a controller. Any number of threads may call at once, if what
 *   a call writes is that call's own. Threads may share sign files and texts that none of them changes.
 * - A call without a handle takes memory by malloc and realloc, and has given all of it back before it returns. How much that is grows
 *   with the sign file, whose length has no limit here. Everything that is handed in stays the host's.
 * - It opens no file, writes no message, and starts no thread. It sets no errno, but malloc and realloc may.
 *
 * Every time and every clock is in tenths of a second. Pages, rows, columns and octets are counted from 0.
 */
#ifndef LATSEFUR_H
#define LATSEFUR_H

#include <stddef.h>
#include <stdint.h>

#if defined(UINTPTR_MAX) && UINTPTR_MAX < 0xffffffffffffffff
#error "Latsefur needs pointers of 64 bits"
#endif

#ifdef __cplusplus
extern "C" {
#endif

/* The version of this header. It rises with each change of it. `latsefur_version` tells that of the library, so a host that loads the
 * library while it runs can compare the two. */
#define LATSEFUR_VERSION 3
uint32_t latsefur_version(void);

/* How a call ended. With an outcome other than LATSEFUR_DONE what the host lent is left as it was, but for verdicts, and for the count of a record
 * or a film that is larger than its buffer, as said there. */
enum {
    LATSEFUR_DONE = 0,         /* all is done; in a verdict: the text is accepted */
    LATSEFUR_REFUSED = 1,      /* the sign refuses the text */
    LATSEFUR_NO_MEMORY = 2,    /* memory was refused; the same call may succeed later */
    LATSEFUR_NO_SIGN_FILE = 3, /* the octets can't be read as a sign file; `signctl sign` says why, up to 16 MiB */
    LATSEFUR_SIGN_FAULT = 4,   /* the sign file is read, but its sign is outside the limits of docs/signs.md */
    LATSEFUR_TOO_SMALL = 5,    /* the buffer is too small for the picture, or for the verdicts */
    LATSEFUR_NO_PAGE = 6,      /* the text has no page of this number */
    LATSEFUR_TOO_LONG = 7,     /* the text has 2^32 octets or more, and isn't judged */
    LATSEFUR_TABLE_FAULT = 8,  /* the sign file is read and its sign is sound, but its message table is outside the limits */
    LATSEFUR_NO_CONTROLLER = 9, /* the handle holds no controller */
    LATSEFUR_BAD_LENGTH = 10,  /* a code hasn't the length that it must have */
    LATSEFUR_NO_DEFAULT = 11,  /* the number names no default */
    LATSEFUR_NO_FONT = 12,     /* the sign has no font of this number */
    LATSEFUR_BAD_VALUE = 13,   /* a number of a film is outside its range, or a number has no sentence */
    LATSEFUR_LARGE_FILM = 14,  /* the film would have more than 64,000,000 octets */
    LATSEFUR_LONG_FILM = 15    /* the text begins anew after more than ten minutes */
};

/* Why a text is refused: the numbers of dmsMultiSyntaxError. docs/multi.md says when each comes. */
enum {
    LATSEFUR_UNSUPPORTED_TAG = 3,
    LATSEFUR_UNSUPPORTED_TAG_VALUE = 4,
    LATSEFUR_TEXT_TOO_BIG = 5,
    LATSEFUR_FONT_NOT_DEFINED = 6,
    LATSEFUR_CHARACTER_NOT_DEFINED = 7,
    LATSEFUR_TAG_CONFLICT = 11,
    LATSEFUR_TOO_MANY_PAGES = 12,
    LATSEFUR_FONT_VERSION_ID = 13
};

/* The largest sign, in pixels. */
enum {
    LATSEFUR_MAX_WIDTH = 1024,
    LATSEFUR_MAX_HEIGHT = 128
};

/* How many octets a plane of a sign takes: at most 16,384. */
#define LATSEFUR_PLANE_SIZE(width, height) (((size_t)(width) + 7) / 8 * (size_t)(height))

/* How many octets the colours of all pixels of a sign take: at most 131,072. */
#define LATSEFUR_COLOURS_SIZE(width, height) ((size_t)(width) * (size_t)(height))

/* What a sign is like. */
typedef struct {
    uint16_t width;    /* columns, in pixels: 1 to 1,024 */
    uint16_t height;   /* rows, in pixels: 1 to 128 */
    uint8_t max_pages; /* how many pages a message may have: 1 to 255 */
    uint8_t classic;   /* 1: ten colours; 0: a pixel is lit or dark, and has colour 1 or 0 */
} latsefur_sign_facts;

/* What a sign says to a text. A number that the outcome has no use for is 0. */
typedef struct {
    size_t at;       /* refused: the first octet of the first item that offends (dmsMultiSyntaxErrorPosition) */
    uint32_t cycle;  /* accepted: the sum of the times of all pages, lit and dark; with one page or a sum of 0, page 0 is always shown */
    uint8_t outcome; /* LATSEFUR_DONE: accepted; LATSEFUR_REFUSED; LATSEFUR_TOO_LONG */
    uint8_t code;    /* refused: the number of the error */
    uint8_t pages;   /* accepted: how many pages it has, 1 to 255 */
} latsefur_verdict;

/* What a sign shows at a clock. */
typedef struct {
    uint64_t phase; /* on: the time since the page began; off: 0 */
    uint8_t page;   /* on: the page; off: 0 */
    uint8_t is_on;  /* 1: a page is shown; 0: it is the off time of a page, and every pixel has colour 0 */
} latsefur_shown;

/* A text among several: its octets, and how many there are. */
typedef struct {
    const uint8_t *octets;
    size_t length;
} latsefur_text;

/* Tells what the sign of a sign file is like. `facts` is written if the outcome is LATSEFUR_DONE.
 *
 * Other outcomes: NO_MEMORY, NO_SIGN_FILE, SIGN_FAULT. Each call below may have these three too.
 *
 * The message table of the sign file, which is its slots and permanent messages, must be readable, but its limits aren't judged. */
uint8_t latsefur_sign(const uint8_t *sign_file, size_t sign_file_len, latsefur_sign_facts *facts);

/* Judges a text on the sign of a sign file. The text may have any octets, and up to 4,294,967,295 of them, where `signctl check` takes
 * at most 4,096. Whether a message table has room for it is another question: `max_string` and `bytes` aren't looked at.
 *
 * `verdict` is written if the outcome is DONE, REFUSED or TOO_LONG, and its own outcome is then the same. */
uint8_t latsefur_check(const uint8_t *sign_file, size_t sign_file_len, const uint8_t *text, size_t text_len,
                       latsefur_verdict *verdict);

/* Judges all of these texts, and reads the sign file once for all. It writes a verdict for each text, in the order of the texts, and
 * leaves the verdicts after those as they were.
 *
 * The outcome is DONE if all texts were judged, whatever each verdict says. It is TOO_SMALL if there are fewer verdicts than texts. */
uint8_t latsefur_check_all(const uint8_t *sign_file, size_t sign_file_len, const latsefur_text *texts, size_t texts_len,
                           latsefur_verdict *verdicts, size_t verdicts_len);

/* Tells what the sign shows of a text at a clock, which counts from the moment at which the text is first shown. The clock may be any
 * number. A text of one page, or with a cycle of 0, always shows page 0, and its phase is the clock. Of any other text the pages come
 * again and again, each with its off time after it. `shown` is written if the outcome is DONE.
 *
 * Other outcomes: REFUSED, TOO_LONG. Each call below may have these two too. */
uint8_t latsefur_shown_at(const uint8_t *sign_file, size_t sign_file_len, const uint8_t *text, size_t text_len, uint64_t clock,
                          latsefur_shown *shown);

/* Draws which pixels have a colour at a clock. The colour is 0 to 9; no pixel has a larger one.
 *
 * The rows go from the top, each with (width + 7) / 8 octets. The leftmost pixel is the highest bit of the first octet of its row, and
 * a bit is 1 if its pixel has the colour. Spare bits at the end of a row are 0. `plane` needs LATSEFUR_PLANE_SIZE(width, height)
 * octets, and what it has after them is left as it was.
 *
 * Another outcome: TOO_SMALL. The calls below may have it too. */
uint8_t latsefur_plane_at(const uint8_t *sign_file, size_t sign_file_len, const uint8_t *text, size_t text_len, uint64_t clock,
                          uint8_t colour, uint8_t *plane, size_t plane_len);

/* The same of a page, at a phase: the time since the page began. The phase matters for flashing text alone, and may be longer than
 * the page is shown. Another outcome: NO_PAGE. */
uint8_t latsefur_plane_of_page(const uint8_t *sign_file, size_t sign_file_len, const uint8_t *text, size_t text_len, uint8_t page,
                               uint64_t phase, uint8_t colour, uint8_t *plane, size_t plane_len);

/* Tells the colour of every pixel at a clock: an octet for each pixel, 0 to 9, row by row from the top and each row from the left.
 * 0 is black or dark. `colours` needs LATSEFUR_COLOURS_SIZE(width, height) octets, and what it has after them is left as it was. */
uint8_t latsefur_colours_at(const uint8_t *sign_file, size_t sign_file_len, const uint8_t *text, size_t text_len, uint64_t clock,
                            uint8_t *colours, size_t colours_len);

/* The same of a page, at a phase. Another outcome: NO_PAGE. */
uint8_t latsefur_colours_of_page(const uint8_t *sign_file, size_t sign_file_len, const uint8_t *text, size_t text_len, uint8_t page,
                                 uint64_t phase, uint8_t *colours, size_t colours_len);

/* Tells what the sign says to a text and why, in a record: the line of JSON that `signctl explain --format json` writes of it, which
 * docs/explain.schema.json describes. With `pictures` other than 0 each page has its picture. The record stands at the front of a buffer, and `count`
 * is how many octets it has; a text that is refused has a record too. The record of a text of more than 4,096 octets says that it is too long.
 *
 * Other outcomes: NO_MEMORY, NO_SIGN_FILE, SIGN_FAULT; and TOO_SMALL, where `count` is written too, so that the next call may have the room. */
uint8_t latsefur_explain(const uint8_t *sign_file, size_t sign_file_len, const uint8_t *text, size_t text_len, uint8_t pictures,
                         uint8_t *told, size_t told_len, size_t *count);

/* Draws a text as it plays, over and over, as a file in GIF: what `signctl picture --all --gif` writes. A pixel is a square of `side` by `side` points,
 * 1 to 16. The film lasts until the text begins anew, or for its first `seconds`, 1 to 600, if these aren't 0. It stands at the front of a buffer,
 * and `count` is how many octets it has.
 *
 * Other outcomes: REFUSED, TOO_LONG; BAD_VALUE, if `side` or `seconds` is outside its range; LARGE_FILM; LONG_FILM, if `seconds` is 0; and
 * TOO_SMALL, where `count` is written too. */
uint8_t latsefur_film(const uint8_t *sign_file, size_t sign_file_len, const uint8_t *text, size_t text_len, uint8_t side, uint16_t seconds,
                      uint8_t *film, size_t film_len, size_t *count);

/* The kinds of numbers that have a sentence. */
enum {
    LATSEFUR_WHY_TABLE = 1,    /* the code of LATSEFUR_REPLY_REFUSED, or of a message that there isn't */
    LATSEFUR_WHY_VALIDATE = 2, /* dmsValidateMessageError */
    LATSEFUR_WHY_ACTIVATE = 3, /* dmsActivateMsgError, the code of LATSEFUR_REPLY_NOT_SHOWN */
    LATSEFUR_WHY_MULTI = 4,    /* dmsMultiSyntaxError */
    LATSEFUR_WHY_DEFAULT = 5,  /* the code of LATSEFUR_REPLY_NOT_SET */
    LATSEFUR_WHY_STATE = 6,    /* the fault of `latsefur_restore` */
    LATSEFUR_WHY_OUTCOME = 7   /* the outcome of a call */
};

/* Tells a sentence for a number of a kind, as 'there is no such memory type': in ASCII, with no full stop, no line feed and no zero after it. It
 * stands at the front of a buffer, and `count` is how many octets it has, at most 64.
 *
 * Other outcomes: BAD_VALUE, if the kind has no such number; and TOO_SMALL, where `count` is written too. */
uint8_t latsefur_sentence(uint8_t kind, uint8_t number, uint8_t *told, size_t told_len, size_t *count);

/* ---- A controller that the host holds ----
 *
 * It keeps the messages of one sign and what the sign shows, for as long as the host wants. docs/messages.md says what each command does,
 * and docs/formats.md has the same commands as lines of a script.
 *
 * What the host keeps for a handle:
 *
 * - It is zeros before the first call, as by `latsefur_controller handle = {0};`. Only the library writes it or reads its fields.
 * - One call at a time has it. It may go to another thread between calls, as under a lock.
 * - No copy of it is handed to a call. It may be moved as a whole between calls, if the old place isn't handed in again.
 * - `latsefur_controller_free` is called in the end. After that, and after zeros, each call but `new` answers NO_CONTROLLER and changes
 *   nothing; so does a second `free`.
 *
 * A copy that is used, or a second call at the same time, breaks what is proved: memory may be freed twice, or read after it was freed.
 *
 * What the library keeps: `new` takes memory by malloc and realloc, keeps some of it until `free`, and gives back the rest before it
 * returns. No other call with a handle takes or gives back any. Between calls nothing runs: time passes by `latsefur_tick` alone. */
typedef struct {
    void *held;   /* the library's */
    uint8_t full; /* the library's */
} latsefur_controller;

/* The reply to a command. A number that the kind has no use for is 0. */
typedef struct {
    uint8_t kind;            /* one of the kinds below */
    uint8_t code;            /* REFUSED, NOT_SHOWN, NOT_SET: why */
    uint8_t status;          /* WORKED: what the message became, 4 valid or 5 error (dmsMessageStatus) */
    uint8_t validate_error;  /* WORKED: dmsValidateMessageError; 2 is none */
    uint8_t multi_error;     /* WORKED: dmsMultiSyntaxError; 2 is none */
    uint16_t number;         /* WORKED: the number of the message */
    uint16_t multi_position; /* WORKED: dmsMultiSyntaxErrorPosition */
} latsefur_reply;

enum {
    LATSEFUR_REPLY_DONE = 0,
    LATSEFUR_REPLY_REFUSED = 1,   /* by the message table: 1 memory type, 2 number, 3 read only, 4 wrong state, 5 bad value, 6 too long, 7 no space */
    LATSEFUR_REPLY_IDLE = 2,      /* no message waits to be judged */
    LATSEFUR_REPLY_WORKED = 3,    /* a message was judged */
    LATSEFUR_REPLY_SHOWN = 4,     /* the message is shown */
    LATSEFUR_REPLY_NOT_SHOWN = 5, /* it isn't: dmsActivateMsgError, 3 to 8 */
    LATSEFUR_REPLY_NOT_SET = 6,   /* the sign refuses the default: 9 its value, 10 no such font */
    LATSEFUR_REPLY_TICKED = 7,    /* time has passed */
    LATSEFUR_REPLY_ENDED = 8      /* time has passed, and a duration has ended */
};

/* The state of the sign. */
typedef struct {
    uint64_t clock;        /* since the display began to show the message; UINT64_MAX may stand for more */
    uint32_t free;         /* octets that texts and owners may still take (dmsFreeChangeableMemory) */
    uint32_t requester;    /* the address of who asked for the message (dmsMsgRequesterID) */
    uint16_t used;         /* changeable messages that are used (dmsNumChangeableMsg) */
    uint16_t shown_number; /* the number of the message that is shown (dmsMsgTableSource) */
    uint16_t crc;          /* its CRC; 0 of a blank message */
    uint16_t remaining;    /* minutes left, rounded up; 65535 has no end (dmsMessageTimeRemaining) */
    uint16_t position;     /* dmsMultiSyntaxErrorPosition */
    uint8_t mode;          /* 1 other, 8 central, 14 endDuration (dmsMsgSourceMode) */
    uint8_t shown_memory;  /* the memory type of the message that is shown */
    uint8_t priority;      /* its run-time priority */
    uint8_t activate;      /* dmsActivateMsgError; 2 is none */
    uint8_t validate;      /* dmsValidateMessageError; 2 is none */
    uint8_t multi;         /* dmsMultiSyntaxError; 2 is none */
} latsefur_report_facts;

/* The defaults (group multiCfg). `latsefur_set_default` names them by their places here: 1 font, up to 9 back. */
typedef struct {
    uint8_t font, line, page, page_on, page_off, flash_on, flash_off, fore, back;
} latsefur_default_facts;

/* A message (object dmsMessageTable). If there is none, all but the code is 0. */
typedef struct {
    size_t multi;     /* how many octets its text has */
    size_t owner;     /* how many its owner has, at most 127 */
    uint16_t crc;     /* dmsMessageCRC; 0 of a blank message */
    uint8_t code;     /* there is no such message: 1 memory type, 2 number */
    uint8_t status;   /* 1 notUsed, 2 modifying, 3 validating, 4 valid, 5 error (dmsMessageStatus) */
    uint8_t priority; /* dmsMessageRunTimePriority */
    uint8_t beacon, pixel;
} latsefur_message;

/* The limits of the message table that a controller holds. */
typedef struct {
    uint32_t bytes;      /* octets of all texts and owners together, at most 1,000,000 */
    uint16_t slots;      /* changeable messages, 1 to 1,000 (dmsMaxChangeableMsg) */
    uint16_t max_string; /* octets of one text, 1 to 4,096 */
    uint8_t permanents;  /* permanent messages, at most 255 (dmsNumPermanentMsg) */
} latsefur_table_facts;

/* A font of the sign that a controller holds (object fontTable). */
typedef struct {
    uint16_t version;     /* fontVersionID; 0 if none is known */
    uint8_t number;       /* 1 to 255 */
    uint8_t height;       /* rows, in pixels: 1 to 64 */
    uint8_t char_spacing; /* columns between two characters, in pixels */
    uint8_t line_spacing; /* rows between two lines, in pixels */
} latsefur_font_facts;

/* Makes the controller of a sign file, which isn't read again. One that the handle held is freed, once the new one is made.
 *
 * Other outcomes: NO_MEMORY, NO_SIGN_FILE, SIGN_FAULT, TABLE_FAULT. The handle then holds what it held. */
uint8_t latsefur_controller_new(const uint8_t *sign_file, size_t sign_file_len, latsefur_controller *handle);

/* Frees the controller, if the handle holds one. */
void latsefur_controller_free(latsefur_controller *handle);

/* The commands. Each writes its reply if the outcome is DONE. Another outcome of each: NO_CONTROLLER. Memory types are 2 permanent,
 * 3 changeable, 5 currentBuffer and 7 blank; messages are numbered from 1.
 *
 * `latsefur_request` asks for a status: 6 modifyReq, 7 validateReq or 8 notUsedReq. A message waits until `latsefur_work` judges it. */
uint8_t latsefur_request(latsefur_controller *handle, uint8_t memory, uint16_t number, uint8_t status, latsefur_reply *reply);
uint8_t latsefur_set_multi(latsefur_controller *handle, uint8_t memory, uint16_t number, const uint8_t *text, size_t text_len,
                           latsefur_reply *reply);
uint8_t latsefur_set_owner(latsefur_controller *handle, uint8_t memory, uint16_t number, const uint8_t *owner, size_t owner_len,
                           latsefur_reply *reply);
uint8_t latsefur_set_priority(latsefur_controller *handle, uint8_t memory, uint16_t number, uint8_t value, latsefur_reply *reply);
uint8_t latsefur_set_beacon(latsefur_controller *handle, uint8_t memory, uint16_t number, uint8_t value, latsefur_reply *reply);
uint8_t latsefur_set_pixel_service(latsefur_controller *handle, uint8_t memory, uint16_t number, uint8_t value, latsefur_reply *reply);
uint8_t latsefur_clear(latsefur_controller *handle, latsefur_reply *reply);
uint8_t latsefur_work(latsefur_controller *handle, latsefur_reply *reply);

/* Shows a message, named by 12 octets: duration in minutes (65535 has no end), priority, memory type, number, CRC and source address,
 * with the high octet of each number first (dmsActivateMessage). Another outcome: BAD_LENGTH. */
uint8_t latsefur_activate(latsefur_controller *handle, const uint8_t *code, size_t code_len, latsefur_reply *reply);

/* Names the message that follows a duration, by 5 octets: memory type, number and CRC (dmsEndDurationMessage). Another outcome:
 * BAD_LENGTH. */
uint8_t latsefur_set_end(latsefur_controller *handle, const uint8_t *code, size_t code_len, latsefur_reply *reply);

/* Some tenths of a second pass. */
uint8_t latsefur_tick(latsefur_controller *handle, uint32_t tenths, latsefur_reply *reply);

/* Sets a default. Another outcome: NO_DEFAULT. */
uint8_t latsefur_set_default(latsefur_controller *handle, uint8_t field, uint8_t value, latsefur_reply *reply);

/* The questions. Each writes its answer if the outcome is DONE. It changes nothing else but the count of steps, which rises by the calls that
 * draw and by `latsefur_next_change`. Another outcome of each: NO_CONTROLLER. */
uint8_t latsefur_report(latsefur_controller *handle, latsefur_report_facts *report);
uint8_t latsefur_defaults(latsefur_controller *handle, latsefur_default_facts *defaults);
uint8_t latsefur_steps(latsefur_controller *handle, uint64_t *steps);

/* Tells a message, with its text and its owner at the front of two buffers. Memory type 5 and number 1 is what the display shows.
 *
 * Other outcomes: TOO_SMALL, if one of the buffers is; REFUSED, if there is no such message, and then `row` says why. */
uint8_t latsefur_row(latsefur_controller *handle, uint8_t memory, uint16_t number, latsefur_message *row, uint8_t *text, size_t text_len,
                     uint8_t *owner, size_t owner_len);

/* Draws which pixels have a colour in what the display shows now, as `latsefur_plane_at` does, and tells which page that is. Another
 * outcome: TOO_SMALL. */
uint8_t latsefur_frame(latsefur_controller *handle, uint8_t colour, latsefur_shown *shown, uint8_t *plane, size_t plane_len);

/* Tells the colour of every pixel of what the display shows now, as `latsefur_colours_at` does, and which page that is. Another outcome:
 * TOO_SMALL. */
uint8_t latsefur_colours(latsefur_controller *handle, latsefur_shown *shown, uint8_t *colours, size_t colours_len);

/* Tells for how many tenths of a second from now on, at most `most`, what the display shows stays as it is: the same page or off time, each pixel
 * in its colour, and the duration not over. So a display driver that has drawn may sleep for this time, if no command comes, and then lets as
 * much pass by `latsefur_tick`. It is 0 if `most` is, or if the next tick of any length ends the duration. What is shown then may be as it was, where a
 * flash or a page looks like what was before it. */
uint8_t latsefur_next_change(latsefur_controller *handle, uint32_t most, uint32_t *tenths);

/* ---- The sign that a controller holds ----
 *
 * These ask of the sign and the message table of the controller, by the defaults in force. They read no sign file. Another outcome of each:
 * NO_CONTROLLER. */
uint8_t latsefur_held_sign(latsefur_controller *handle, latsefur_sign_facts *facts);
uint8_t latsefur_held_table(latsefur_controller *handle, latsefur_table_facts *table);

/* Tells the font of a number. Another outcome: NO_FONT. */
uint8_t latsefur_held_font(latsefur_controller *handle, uint8_t number, latsefur_font_facts *font);

/* Judges a text, as `latsefur_check` does, but by the defaults in force. `verdict` is written if the outcome is DONE, REFUSED or TOO_LONG, and its
 * own outcome is then the same. */
uint8_t latsefur_held_check(latsefur_controller *handle, const uint8_t *text, size_t text_len, latsefur_verdict *verdict);

/* Draws a page of a text at a phase, as `latsefur_plane_of_page` and `latsefur_colours_of_page` do, but by the defaults in force. What the
 * display shows stays. Other outcomes: REFUSED, TOO_LONG, NO_PAGE, TOO_SMALL. */
uint8_t latsefur_held_plane_of_page(latsefur_controller *handle, const uint8_t *text, size_t text_len, uint8_t page, uint64_t phase,
                                    uint8_t colour, uint8_t *plane, size_t plane_len);
uint8_t latsefur_held_colours_of_page(latsefur_controller *handle, const uint8_t *text, size_t text_len, uint8_t page, uint64_t phase,
                                      uint8_t *colours, size_t colours_len);

/* The CRC of a message's text, beacon and pixel service (dmsMessageCRC). An activation code has it, the high octet first. */
uint16_t latsefur_message_crc(const uint8_t *text, size_t text_len, uint8_t beacon, uint8_t pixel);

/* The sizes that the library takes these structures to have; the platform is Linux on x86-64 or AArch64. Before C11 and C++11 an array of a negative
 * length refuses another size. */
#if defined(__cplusplus) && __cplusplus >= 201103L
#define LATSEFUR_HAS_SIZE(type, size) static_assert(sizeof(type) == (size), #type " has another size than the library takes it to have")
#elif defined(__STDC_VERSION__) && __STDC_VERSION__ >= 201112L
#define LATSEFUR_HAS_SIZE(type, size) _Static_assert(sizeof(type) == (size), #type " has another size than the library takes it to have")
#else
#define LATSEFUR_HAS_SIZE(type, size) typedef char type##_has_another_size[sizeof(type) == (size) ? 1 : -1]
#endif
LATSEFUR_HAS_SIZE(latsefur_sign_facts, 6);
LATSEFUR_HAS_SIZE(latsefur_verdict, 16);
LATSEFUR_HAS_SIZE(latsefur_shown, 16);
LATSEFUR_HAS_SIZE(latsefur_text, 16);
LATSEFUR_HAS_SIZE(latsefur_controller, 16);
LATSEFUR_HAS_SIZE(latsefur_reply, 10);
LATSEFUR_HAS_SIZE(latsefur_report_facts, 32);
LATSEFUR_HAS_SIZE(latsefur_default_facts, 9);
LATSEFUR_HAS_SIZE(latsefur_message, 24);
LATSEFUR_HAS_SIZE(latsefur_table_facts, 12);
LATSEFUR_HAS_SIZE(latsefur_font_facts, 6);

/* The state of a controller as octets, for a host that survives a loss of power. Another outcome of each: NO_CONTROLLER.
 *
 * `latsefur_save` writes the messages, the display with its clock, the defaults, the registers and the message that follows a duration at the
 * front of a buffer, and tells in `count` how many octets that are. The buffer has as many as `latsefur_save_size` tells, which depends on the
 * sign file alone. Another outcome: TOO_SMALL. A version, a length and a CRC-32 are among the octets, and the host keeps them as they are. */
uint8_t latsefur_save_size(latsefur_controller *handle, size_t *size);
uint8_t latsefur_save(latsefur_controller *handle, uint8_t *octets, size_t octets_len, size_t *count);

/* Restores what was saved, by a controller of the same sign file: it then answers each call as the one that was saved, but for the counts of
 * steps and revisions. `fault` is 0 then.
 *
 * Another outcome: REFUSED. Nothing but the count of steps changes then, and `fault` is the first reason: 1 there are fewer or more octets than
 * there should be, 2 they are of another version, 3 their CRC-32 isn't theirs, 4 a number is outside its range, 5 a text is too long,
 * 6 the texts would pass the budget, 7 the table has another number of messages, 8 the sign refuses the defaults, 9 it refuses the text of the
 * display. */
uint8_t latsefur_restore(latsefur_controller *handle, const uint8_t *octets, size_t octets_len, uint8_t *fault);

/* Tells a number that rises with each command that is done, judges a message, shows one or doesn't, or ends a duration, and with each restore.
 * While it stays, only time may have passed, so a host saves when it has risen. */
uint8_t latsefur_revision(latsefur_controller *handle, uint64_t *revision);

/* Tells the message that follows a duration, in the 5 octets of `latsefur_set_end`. Another outcome: TOO_SMALL. */
uint8_t latsefur_end(latsefur_controller *handle, uint8_t *code, size_t code_len);

#ifdef __cplusplus
}
#endif

#endif

/* Cogalbin for C and C++: what follows from the assumptions and messages of a key exchange, and why.

   docs/USING.md tells how the calls go together. What each call answers is proved against the definitions in
   crates/logic/specs; the contracts stand in crates/capi/src/lib.rt.

   The header needs C99, or C++98 and later with a <stdint.h>.

   A slice of bytes is a pointer and then a length. An empty slice needs a pointer too: any that is not null. A slice that
   a call writes to must not overlap any other slice of that call: what is proved of a call holds for slices apart, and no
   call looks whether they are. A host that gives cogalbin_prove one buffer for work and derivation gets a derivation that
   does not check.
   The library keeps nothing between two calls, so calls from several threads need no lock as long as none writes what
   another one reads or writes.

   To link: the archive libcapi.a and the C library's memset and memcpy (and memmove, memcmp, which a compiler may use too).
   There is no heap, no file and no global state. Stack: see docs/USING.md; 300 KB are enough for every call.

   Each call answers one number of 64 bits:

     bits 0 to 7    0 if the call did what it was asked for, otherwise the number of the refusal (COGALBIN_ .. below)
     bits 8 to 63   of a refusal: the place, which is the number of the record, goal or step that the refusal names
                    otherwise: what the call is worth, as told at each call

   A refusal changes none of the caller's bytes. */

#ifndef COGALBIN_H
#define COGALBIN_H

#include <stddef.h>
#include <stdint.h>

/* The version of this interface, major x 1000 + minor. The minor number rises when something is added; the major number
   rises, and the minor one goes back to 0, when a host that was written for an earlier version might get something else.
   1.0 had seven calls; 1.1 adds cogalbin_list, and 3.1 cogalbin_reason. From 2.0 on formula records may stand anywhere in a book: what earlier versions
   refused with COGALBIN_OUT_OF_ORDER for a formula record is accepted, or refused for another cause. From 3.0 on the figure per
   cent of a listing goes at the half to the even neighbour, and no longer up: 1 of 8 goals is 12 per cent. From 4.0 on a book may
   have key variables (kind 16) and delegations over any key (kind 17): what earlier versions refused with COGALBIN_UNKNOWN_KIND
   for these kinds is accepted, or refused for another cause, 22 and 23 among them; and a derivation may have steps of the kinds
   86 and 87. 4.1 adds cogalbin_guest_text and cogalbin_guest_list, and 4.2 cogalbin_honesty. */
#define COGALBIN_VERSION_MAJOR 4
#define COGALBIN_VERSION_MINOR 2
#define COGALBIN_VERSION (COGALBIN_VERSION_MAJOR * 1000 + COGALBIN_VERSION_MINOR)

#ifdef __cplusplus
extern "C" {
#endif

/* The refusals, and what the place is. Record numbers count all records of a book from 0. */
enum {
    COGALBIN_DONE = 0,
    COGALBIN_UNKNOWN_KIND = 1,        /* unknown kind byte: record number */
    COGALBIN_WRONG_LENGTH = 2,        /* body not of its kind's length: record number */
    COGALBIN_OUT_OF_ORDER = 3,        /* assumption behind a message or goal, message behind a goal: record number */
    COGALBIN_DANGLING_REFERENCE = 4,  /* reference not to a formula that stands before it: record number */
    COGALBIN_WRONG_SORT = 5,          /* reference of the wrong sort: record number */
    COGALBIN_NAMES_NOT_RISING = 6,    /* principals of kind 8 or 10 equal in name or falling: record number */
    COGALBIN_SENDER_IS_RECEIVER = 7,  /* record number */
    COGALBIN_REPEATED_FORMULA = 8,    /* record number */
    COGALBIN_OVER_LIMIT = 9,          /* a count above its limit: record number */
    COGALBIN_NOT_STATEMENT = 10,      /* assumption or goal not of kind 12 or 13: record number */
    COGALBIN_MESSAGE_AFTER_LAST = 11, /* goal's message number above the count: record number */
    COGALBIN_NO_SPACE = 12,           /* entering: records present, or 0 if the used length is above the buffer's */
    COGALBIN_NO_SUCH_GOAL = 13,       /* goal number */
    COGALBIN_SHORT_BUFFER = 14,       /* table, work, derivation, report or buffer of a listing too short: 0 */
    COGALBIN_LONG_TEXT = 15,          /* text above 4,096 bytes or above its buffer: 0 */
    COGALBIN_BAD_STEP_KIND = 16,      /* step kind unknown, or step cut: step number */
    COGALBIN_MALFORMED_FACT = 17,     /* step number; 0 from cogalbin_text and cogalbin_guest_text */
    COGALBIN_PREMISE_NOT_EARLIER = 18,/* step number */
    COGALBIN_DOES_NOT_FOLLOW = 19,    /* step number */
    COGALBIN_NOT_THE_GOAL = 20,       /* last step not the goal, or no step: steps read */
    COGALBIN_TOO_MANY_STEPS = 21,     /* step numbered 65,535 or above: step number */
    COGALBIN_LOOSE_VARIABLE = 22,     /* assumption, message or goal with a variable outside every kind 17: record number */
    COGALBIN_WRONG_DELEGATION = 23    /* kind 17 that holds another kind 17 or another variable: record number */
};

/* Sizes that hold for every accepted book. */
enum {
    COGALBIN_MOST_BOOK = 2256,          /* bytes of a book */
    COGALBIN_MOST_PLACES = 38912,       /* F: bytes of a table; F x 8 bytes of work, F x 12 for a derivation */
    COGALBIN_MOST_TEXT = 4096,          /* bytes of the text of a fact */
    COGALBIN_MOST_LINE = 4160,          /* bytes of a line of a listing */
    COGALBIN_MOST_REPORT = 16384,       /* bytes of a report on honest senders */
    COGALBIN_MOST_REASON = 80,          /* bytes of the sentence of a refusal */
    COGALBIN_FACT = 7                   /* bytes of a written fact */
};

/* Reads a book: is it one, and how many records of each class has it?
   Answers the counts: cogalbin_formulas, .._principals, .._assumptions, .._messages, .._goals. */
uint64_t cogalbin_read(const uint8_t *book, size_t book_length);

/* How many places a survey of the book has. Answers F by cogalbin_count. The buffers of the calls below:
   table F bytes, work F x 8 bytes, derivation F x 12 bytes; more does no harm. */
uint64_t cogalbin_places(const uint8_t *book, size_t book_length);

/* Enters one record behind the first `used` bytes of the buffer, which are a book (0 bytes are one).
   A formula that is there already is not written again. Otherwise the record is appended, and `used` has to grow by
   record_length. Bytes behind the record stay. Answers cogalbin_appended, and by cogalbin_entered the number of the
   record in its own class: formulas, assumptions and goals count from 0, messages from 1.
   A formula may be entered at any time, an assumption as long as there is no message or goal, a message as long as there is
   no goal.
   12 at place 0 means one of two things: `used` is above buffer_length, or no record is present yet and the buffer is too
   short for the first. Compare `used` with buffer_length to tell them apart. */
uint64_t cogalbin_enter(uint8_t *buffer, size_t buffer_length, size_t used, const uint8_t *record, size_t record_length);

/* Writes the survey to the first F bytes of the table: for each fact 0 if it never follows, otherwise 1 + the number of
   the first message after which it follows. Bytes behind them stay. Answers by cogalbin_count how many are not 0. */
uint64_t cogalbin_survey(const uint8_t *book, size_t book_length, uint8_t *table, size_t table_length);

/* Proves goal number `goal`, counted from 0. Answers cogalbin_reached; by cogalbin_held the number of facts held after
   the goal's message; and, if the goal is reached, the derivation at the front of its buffer with cogalbin_steps and
   cogalbin_bytes. Not reached means that no derivation exists; the derivation buffer stays as it was then. The first
   F x 8 bytes of work may hold anything afterwards. Other bytes stay. Work and derivation are two buffers: in one, the
   search and the derivation overwrite each other. */
uint64_t cogalbin_prove(const uint8_t *book, size_t book_length, uint32_t goal, uint8_t *work, size_t work_length,
                        uint8_t *derivation, size_t derivation_length);

/* Checks a derivation of goal number `goal`, whoever made it: pass just the bytes of its steps. Answers 0, and nothing
   else, if it is accepted. The checker shares the book's reader and index with the prover, and nothing of the search. */
uint64_t cogalbin_check(const uint8_t *book, size_t book_length, uint32_t goal, const uint8_t *derivation,
                        size_t derivation_length);

/* Writes the text of a fact (COGALBIN_FACT bytes, as it stands in a step) to the front of the buffer. No end mark is
   written. Answers the length by cogalbin_count. */
uint64_t cogalbin_text(const uint8_t *book, size_t book_length, const uint8_t *fact, size_t fact_length,
                       uint8_t *buffer, size_t buffer_length);

/* The same for a guest, who may know principals and keys but not which data are carried: a datum is N# and the number of its formula,
   as N#5, and never its name number. 15 goes by the text that the guest reads. For two accepted books with as many records, each
   pair equal or both of kind 3, the same fact and the same buffer, the answers are equal, and so are the bytes. */
uint64_t cogalbin_guest_text(const uint8_t *book, size_t book_length, const uint8_t *fact, size_t fact_length,
                             uint8_t *buffer, size_t buffer_length);

/* Writes the next piece of the listing to the front of the buffer: a line for each fact that follows, in the order of the
   table, as "1 P1 sees N1" with the number of the first message after which it follows; then "held H", then
   "goals R of G, C per cent", C to the nearest whole number and at the half to the even one. The table is the one that
   cogalbin_survey filled for this book. Each line ends in a line feed, no end mark is written, and bytes behind the piece stay.
   Lines have numbers. Start at 0 and go on from the number answered, until it is over:

     size_t from = 0;
     uint64_t answer = cogalbin_list(book, book_length, table, table_length, from, buffer, buffer_length);
     while (cogalbin_number(answer) == COGALBIN_DONE && !cogalbin_over(answer)) {
         fwrite(buffer, 1, cogalbin_written(answer), stdout);
         from = cogalbin_next(answer);
         answer = cogalbin_list(book, book_length, table, table_length, from, buffer, buffer_length);
     }

   A piece has as many whole lines as fit into the buffer, and at least one; the number to go on from is always above the
   one that was asked from. COGALBIN_MOST_LINE bytes are always enough for the next line. Refused as 14 are a buffer too
   short for it, which a longer one may follow from the same number, and a table of less than F bytes. */
uint64_t cogalbin_list(const uint8_t *book, size_t book_length, const uint8_t *table, size_t table_length, size_t from,
                       uint8_t *buffer, size_t buffer_length);

/* The next piece of the guest's listing: the listing with the texts of cogalbin_guest_text, "too long" for those of them that are above
   4,096 bytes. For two accepted books as above their surveys are equal, and with equal tables every answer and every piece is. */
uint64_t cogalbin_guest_list(const uint8_t *book, size_t book_length, const uint8_t *table, size_t table_length, size_t from,
                             uint8_t *buffer, size_t buffer_length);

/* Writes to the front of the report what senders do not believe of what they send: a run of pairs, each of a message number and a
   formula number, two bytes each, high byte first; rising by message, then by formula, no pair twice. From the formula of a message
   the walk goes through conjunctions, through the X of combined formulas and into the bodies of encrypted and signed sections from
   its sender; sections from somebody else are skipped whole. A formula of kind 8 to 15 or 17 that is met inside such a section is
   named unless the sender believes it before he sends it: unless this follows from the assumptions and the messages ahead. Data are
   never named. Bytes behind the report stay. Answers its length in bytes by cogalbin_count, 0 if all senders are honest. Refused as
   14 is a buffer shorter than the report; COGALBIN_MOST_REPORT bytes are always enough. */
uint64_t cogalbin_honesty(const uint8_t *book, size_t book_length, uint8_t *report, size_t report_length);

/* Writes why something was refused, in words, to the front of the buffer: the sentence of a refusal's number, 1 to 23, as
   "a reference of the wrong sort". A number that is no refusal's has the empty sentence. No end mark is written, and bytes behind
   the sentence stay. Answers its length by cogalbin_count. Refused as 14 is a buffer too short for it. */
uint64_t cogalbin_reason(uint32_t number, uint8_t *buffer, size_t buffer_length);

/* Taking an answer apart. */

/* of every call: 0, or the number of the refusal */
static inline unsigned cogalbin_number(uint64_t answer) { return (unsigned)(answer & 255u); }

/* of a refusal: the record, goal or step. It is at most 368 for a record, 65,535 for a step; for a goal, what was asked for. */
static inline uint64_t cogalbin_place(uint64_t answer) { return answer >> 8; }

/* of cogalbin_read: at most 256, 8, 64, 16, 32 */
static inline unsigned cogalbin_formulas(uint64_t answer) { return (unsigned)(answer >> 8 & 65535u); }
static inline unsigned cogalbin_principals(uint64_t answer) { return (unsigned)(answer >> 24 & 255u); }
static inline unsigned cogalbin_assumptions(uint64_t answer) { return (unsigned)(answer >> 32 & 255u); }
static inline unsigned cogalbin_messages(uint64_t answer) { return (unsigned)(answer >> 40 & 255u); }
static inline unsigned cogalbin_goals(uint64_t answer) { return (unsigned)(answer >> 48 & 255u); }

/* of cogalbin_places and cogalbin_survey (at most 38,912), of cogalbin_text and cogalbin_guest_text (at most 4,096), of
   cogalbin_honesty (at most 16,384) and of cogalbin_reason (at most 80) */
static inline size_t cogalbin_count(uint64_t answer) { return (size_t)(answer >> 8); }

/* of cogalbin_enter: 1 if the record was appended, 0 if the formula was there; and its number, at most 255 */
static inline int cogalbin_appended(uint64_t answer) { return (int)(answer >> 8 & 1u); }
static inline unsigned cogalbin_entered(uint64_t answer) { return (unsigned)(answer >> 9); }

/* of cogalbin_prove: 1 if the goal is reached; facts held, at most 38,912; steps, at most 65,535; bytes of the derivation,
   at most 12 x steps. Steps and bytes are 0 if the goal is not reached. */
static inline int cogalbin_reached(uint64_t answer) { return (int)(answer >> 8 & 1u); }
static inline unsigned cogalbin_held(uint64_t answer) { return (unsigned)(answer >> 9 & 65535u); }
static inline unsigned cogalbin_steps(uint64_t answer) { return (unsigned)(answer >> 25 & 65535u); }
static inline size_t cogalbin_bytes(uint64_t answer) { return (size_t)(answer >> 41); }

/* of cogalbin_list and cogalbin_guest_list: 1 if the listing is over, and nothing is written then; otherwise the number of the line to go on from,
   at most 38,914, and the bytes of the piece, which are within the buffer. Both are 0 if it is over. */
static inline int cogalbin_over(uint64_t answer) { return (int)(answer >> 8 & 1u); }
static inline size_t cogalbin_next(uint64_t answer) { return (size_t)(answer >> 9 & 65535u); }
static inline size_t cogalbin_written(uint64_t answer) { return (size_t)(answer >> 25); }

#ifdef __cplusplus
}
#endif

#endif

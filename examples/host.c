/* A host in C. It enters the certificate of document 01 record by record, prints its listing and the guest's, proves its goals, has each
   derivation checked and prints it. Then the same for the certificate whose signed part is from P1, where no derivation exists. Called as
   `host report` it prints what the senders do not believe, too. */

#include <stdio.h>
#include <string.h>

#include "cogalbin.h"

/* A book as it grows. */
struct book {
    uint8_t bytes[COGALBIN_MOST_BOOK];
    size_t used;
};

/* Large enough for every book. */
static uint8_t table[COGALBIN_MOST_PLACES];
static uint8_t work[COGALBIN_MOST_PLACES * 8];
static uint8_t derivation[COGALBIN_MOST_PLACES * 12];
static uint8_t report[COGALBIN_MOST_REPORT];

static int failed = 0;

/* Whether the report of honest senders is wanted. */
static int with_report = 0;

/* A refusal: its number, its place, and why, in words. */
static void print_refusal(const char *what, uint64_t answer)
{
    uint8_t words[COGALBIN_MOST_REASON];
    const uint64_t reason = cogalbin_reason(cogalbin_number(answer), words, sizeof words);
    printf("%s: refused %u at %lu, ", what, cogalbin_number(answer), (unsigned long)cogalbin_place(answer));
    fwrite(words, 1, cogalbin_count(reason), stdout);
    printf("\n");
}

/* What a call answered, if it was a refusal. */
static int refused(const char *call, uint64_t answer)
{
    if (cogalbin_number(answer) == COGALBIN_DONE) return 0;
    print_refusal(call, answer);
    failed = 1;
    return 1;
}

static void put_word(uint8_t *at, unsigned value)
{
    at[0] = (uint8_t)(value >> 8);
    at[1] = (uint8_t)(value & 255u);
}

static unsigned word(const uint8_t *at) { return (unsigned)at[0] * 256u + at[1]; }

/* Enters a record with `fields` fields. Its number in its own class. */
static unsigned enter(struct book *b, unsigned kind, unsigned fields, unsigned first, unsigned second, unsigned third)
{
    uint8_t record[7];
    const size_t length = 1 + 2 * (size_t)fields;
    uint64_t answer;
    record[0] = (uint8_t)kind;
    put_word(record + 1, first);
    put_word(record + 3, second);
    put_word(record + 5, third);
    answer = cogalbin_enter(b->bytes, sizeof b->bytes, b->used, record, length);
    if (refused("enter", answer)) return 0;
    if (cogalbin_appended(answer)) b->used += length;
    return cogalbin_entered(answer);
}

/* The certificate: K1 belongs to P2, says P3, who signed this together with N1. The signed part is from `signer`, which is P1,
   P2 or P3 by its formula number 0, 1 or 2. Two goals ask whether P1 believes it, after the message and before. Each formula is
   entered where it is wanted: assumptions come before messages and messages before goals, formulas stand anywhere. */
static void certificate(struct book *b, unsigned signer)
{
    unsigned p1, p2, p3, k1, k2, n1, owner, pair, sealed, trust, fresh, sure, control, depend, wanted;
    b->used = 0;
    p1 = enter(b, 1, 1, 1, 0, 0);
    p2 = enter(b, 1, 1, 2, 0, 0);
    p3 = enter(b, 1, 1, 3, 0, 0);
    k1 = enter(b, 2, 1, 1, 0, 0);
    k2 = enter(b, 2, 1, 2, 0, 0);
    n1 = enter(b, 3, 1, 1, 0, 0);
    owner = enter(b, 9, 2, k1, p2, 0);          /* K1 of P2 */
    pair = enter(b, 4, 2, owner, n1, 0);        /* (K1 of P2, N1) */
    sealed = enter(b, 6, 3, pair, k2, signer);  /* signed under the inverse of K2 */
    trust = enter(b, 9, 2, k2, p3, 0);          /* K2 of P3 */
    trust = enter(b, 12, 2, p1, trust, 0);      /* P1 believes K2 of P3 */
    enter(b, 32, 1, trust, 0, 0);
    fresh = enter(b, 11, 1, n1, 0, 0);          /* fresh N1 */
    sure = enter(b, 12, 2, p1, fresh, 0);       /* P1 believes fresh N1 */
    enter(b, 32, 1, sure, 0, 0);
    control = enter(b, 15, 2, p3, owner, 0);    /* P3 controls K1 of P2 */
    depend = enter(b, 12, 2, p1, control, 0);   /* P1 believes P3 controls K1 of P2 */
    enter(b, 32, 1, depend, 0, 0);
    enter(b, 33, 3, p3, p1, sealed);
    wanted = enter(b, 12, 2, p1, owner, 0);     /* P1 believes K1 of P2 */
    enter(b, 34, 2, 1, wanted, 0);
    enter(b, 34, 2, 0, wanted, 0);
}

/* The text of a written fact. */
static void print_fact(const struct book *b, const uint8_t *fact)
{
    uint8_t text[COGALBIN_MOST_TEXT];
    const uint64_t answer = cogalbin_text(b->bytes, b->used, fact, COGALBIN_FACT, text, sizeof text);
    if (cogalbin_number(answer) == COGALBIN_LONG_TEXT) printf("too long");
    else if (!refused("text", answer)) fwrite(text, 1, cogalbin_count(answer), stdout);
}

/* cogalbin_list or cogalbin_guest_list. */
typedef uint64_t (*list_call)(const uint8_t *book, size_t book_length, const uint8_t *table, size_t table_length, size_t from,
                              uint8_t *buffer, size_t buffer_length);

/* A listing, piece by piece. The buffer starts small, and has room for every line once a line was too long for it. */
static void print_pieces(list_call list, const struct book *b, size_t places)
{
    uint8_t lines[COGALBIN_MOST_LINE];
    size_t length = 32;
    size_t from = 0;
    unsigned pieces = 0;
    for (;;) {
        const uint64_t answer = list(b->bytes, b->used, table, places, from, lines, length);
        if (cogalbin_number(answer) == COGALBIN_SHORT_BUFFER && length < sizeof lines) {
            length = sizeof lines;
            continue;
        }
        if (refused("list", answer) || cogalbin_over(answer)) break;
        fwrite(lines, 1, cogalbin_written(answer), stdout);
        from = cogalbin_next(answer);
        pieces++;
    }
    printf("listed in %u pieces\n", pieces);
}

/* What the survey tells, and what of it a guest may read, who is not to know which data are carried. */
static void print_listing(const struct book *b, size_t places)
{
    if (refused("survey", cogalbin_survey(b->bytes, b->used, table, places))) return;
    print_pieces(cogalbin_list, b, places);
    printf("for a guest:\n");
    print_pieces(cogalbin_guest_list, b, places);
}

/* Who sends what he does not believe: each pair of the report. */
static void print_honesty(const struct book *b)
{
    const uint64_t answer = cogalbin_honesty(b->bytes, b->used, report, sizeof report);
    size_t at;
    if (refused("honesty", answer)) return;
    for (at = 0; at < cogalbin_count(answer); at += 4)
        printf("message %u: its sender does not believe formula %u\n", word(report + at), word(report + at + 2));
    if (cogalbin_count(answer) == 0) printf("all senders are honest\n");
}

/* Two numbers follow the fact of a step by rule 1 to 5, 9 to 11, 20 or 21, otherwise one. */
static int has_two(unsigned kind)
{
    const unsigned rule = kind - 65;
    return kind > 65 && (rule <= 5 || (rule >= 9 && rule <= 11) || rule == 20 || rule == 21);
}

static void print_steps(const struct book *b, size_t bytes)
{
    size_t at = 0;
    unsigned step = 0;
    while (at < bytes) {
        const unsigned kind = derivation[at];
        const uint8_t *fact = derivation + at + 1;
        const uint8_t *numbers = fact + COGALBIN_FACT;
        printf("%4u. ", step);
        print_fact(b, fact);
        if (kind == 64) printf("  [assumption %u]\n", word(numbers));
        else if (kind == 65) printf("  [message %u]\n", word(numbers));
        else if (has_two(kind)) printf("  [rule %u from %u and %u]\n", kind - 65, word(numbers), word(numbers + 2));
        else printf("  [rule %u from %u]\n", kind - 65, word(numbers));
        at += 1 + COGALBIN_FACT + (has_two(kind) ? 4 : 2);
        step++;
    }
}

static void prove(const struct book *b, size_t places, unsigned goal)
{
    const uint64_t answer = cogalbin_prove(b->bytes, b->used, goal, work, places * 8, derivation, places * 12);
    uint64_t verdict;
    printf("goal %u: ", goal);
    if (refused("prove", answer)) return;
    if (!cogalbin_reached(answer)) {
        printf("not reached, no derivation exists; %u facts held\n", cogalbin_held(answer));
        return;
    }
    printf("reached in %u steps, %lu bytes; %u facts held\n", cogalbin_steps(answer), (unsigned long)cogalbin_bytes(answer),
           cogalbin_held(answer));
    print_steps(b, cogalbin_bytes(answer));
    verdict = cogalbin_check(b->bytes, b->used, goal, derivation, cogalbin_bytes(answer));
    if (!refused("check", verdict)) printf("  accepted by the checker\n");
}

static void show(const struct book *b)
{
    const uint64_t counts = cogalbin_read(b->bytes, b->used);
    const uint64_t places = cogalbin_places(b->bytes, b->used);
    unsigned goal;
    if (refused("read", counts) || refused("places", places)) return;
    printf("formulas %u, principals %u, assumptions %u, messages %u, goals %u; %lu bytes, %lu places\n",
           cogalbin_formulas(counts), cogalbin_principals(counts), cogalbin_assumptions(counts), cogalbin_messages(counts),
           cogalbin_goals(counts), (unsigned long)b->used, (unsigned long)cogalbin_count(places));
    print_listing(b, cogalbin_count(places));
    if (with_report) print_honesty(b);
    for (goal = 0; goal < cogalbin_goals(counts); goal++) prove(b, cogalbin_count(places), goal);
}

/* What is turned away, and what is answered then. */
static void show_refusals(struct book *b)
{
    static const uint8_t message[] = {33, 0, 2, 0, 0, 0, 8};
    static const uint8_t first_again[] = {1, 0, 1};
    const size_t places = cogalbin_count(cogalbin_places(b->bytes, b->used));
    uint64_t a = cogalbin_enter(b->bytes, sizeof b->bytes, b->used, first_again, sizeof first_again);
    printf("P1 entered again: appended %d, number %u\n", cogalbin_appended(a), cogalbin_entered(a));
    a = cogalbin_enter(b->bytes, sizeof b->bytes, b->used, message, sizeof message);
    print_refusal("a message behind the goals", a);
    a = cogalbin_enter(b->bytes, 2, 0, first_again, sizeof first_again);
    print_refusal("a first record without space", a);
    a = cogalbin_enter(b->bytes, 2, 3, first_again, sizeof first_again);
    print_refusal("a used length above the buffer's", a);
    a = cogalbin_read(b->bytes, b->used - 1);
    print_refusal("the book without its last byte", a);
    a = cogalbin_survey(b->bytes, b->used, table, places - 1);
    print_refusal("a table one byte short", a);
    a = cogalbin_list(b->bytes, b->used, table, places, 0, derivation, 4);
    print_refusal("a listing into four bytes", a);
    a = cogalbin_list(b->bytes, b->used, table, places, places + 2, derivation, 4);
    printf("a listing from behind its last line: over %d\n", cogalbin_over(a));
    if (with_report) {
        a = cogalbin_honesty(b->bytes, b->used, report, 3);
        print_refusal("a report into three bytes", a);
    }
    a = cogalbin_prove(b->bytes, b->used, 7, work, places * 8, derivation, places * 12);
    print_refusal("goal 7", a);
    a = cogalbin_check(b->bytes, b->used, 0, derivation, 0);
    print_refusal("no steps", a);
}

int main(int argc, char **argv)
{
    static struct book b;
    with_report = argc > 1 && strcmp(argv[1], "report") == 0;
    printf("The certificate\n");
    certificate(&b, 2);
    show(&b);
    show_refusals(&b);
    printf("\nIts signed part from P1\n");
    certificate(&b, 0);
    show(&b);
    return failed;
}

/*
 * One title's way through a till: registered, lent, returned, moved to the card and back, deleted. Beside it a picture, lent
 * and returned. Then a call as request bytes, written and read back, and a basket of requests, previewed and committed. Then
 * it shows what stands on the card and in the ledger, and puts titles in the first entries that take them. Last come streams of
 * requests.
 */
#include <inttypes.h>
#include <stdio.h>

#include "music_counter.h"

#define ROWS 64
#define APPLICATION 7

static uint8_t ledger[COUNTER_LEDGER_SIZE(ROWS)];
static uint8_t titles[COUNTER_TITLES_SIZE];
static uint8_t rules[COUNTER_RULES_SIZE];

/* Pictures have a ledger and tables of their own. */
#define PICTURES 16

static uint8_t picture_ledger[COUNTER_LEDGER_SIZE(PICTURES)];
static uint8_t picture_titles[COUNTER_TITLES_SIZE];
static uint8_t picture_rules[COUNTER_RULES_SIZE];

/* Where a basket is previewed: as long as the originals. */
static uint8_t scratch_ledger[sizeof ledger];
static uint8_t scratch_titles[sizeof titles];
static uint8_t scratch_rules[sizeof rules];

/* Each buffer is passed as a pointer and a length. */
#define LEDGER ledger, sizeof ledger
#define TITLES titles, sizeof titles
#define RULES rules, sizeof rules
#define PICTURE_LEDGER picture_ledger, sizeof picture_ledger
#define PICTURE_TITLES picture_titles, sizeof picture_titles
#define PICTURE_RULES picture_rules, sizeof picture_rules
#define SCRATCH_LEDGER scratch_ledger, sizeof scratch_ledger
#define SCRATCH_TITLES scratch_titles, sizeof scratch_titles
#define SCRATCH_RULES scratch_rules, sizeof scratch_rules

/* What keys are overwritten with; a till takes fresh random numbers. */
static const uint64_t f1 = 0xf1a0a1a2a3a4a5a6, f2 = 0xf2b0b1b2b3b4b5b6, f3 = 0xf3c0c1c2c3c4c5c6, f4 = 0xf4d0d1d2d3d4d5d6;

static uint64_t another_filler(void)
{
    static uint64_t filler = 0xf5e0e1e2e3e4e5e6;

    return filler += 0x0123456789abcdef;
}

static void show(const char *step, uint64_t answer)
{
    printf("%-44s %2" PRIu64 "  %s\n", step, answer, counter_text(answer));
}

static void show_copies(bool pair, const uint8_t *t, size_t t_len, const uint8_t *r, size_t r_len, uint64_t content)
{
    uint64_t copies = 0;
    uint64_t answer = counter_tally(pair, t, t_len, r, r_len, content, &copies);

    show("tally", answer);
    if (answer == COUNTER_DONE)
        printf("    copies of title %" PRIu64 ": %" PRIu64 "\n", content, copies);
}

/* Whatever is answered, the till learns how many entries were read in search of a copy, and can budget its screen updates. */
static void show_move_in(const char *step, uint64_t content, uint64_t entry, uint64_t hash)
{
    uint64_t entries_read;

    show(step, counter_move_in(COUNTER_AUDIO, LEDGER, TITLES, RULES, content, entry, hash, &entries_read));
    printf("    entries read: %" PRIu64 "\n", entries_read);
}

/* The first entry of the card that is of this kind and has this title, or 0 where there is none. A call on entry 0 is refused. */
static uint64_t find_entry(uint64_t kind, uint64_t content)
{
    uint64_t kind_here, content_here, facts[COUNTER_FACT_COUNT];

    for (uint64_t entry = 1; entry <= COUNTER_LAST_ENTRY; entry++)
        if (counter_inspect_entry(COUNTER_AUDIO, TITLES, RULES, entry, &kind_here, &content_here, facts) == COUNTER_DONE &&
            kind_here == kind && content_here == content)
            return entry;
    return 0;
}

/* A copy comes back: the till knows its title, and finds its entry. Answered 16, the check-in is made with another filler. */
static void take_back(const char *step, uint64_t content, uint64_t filler)
{
    const uint64_t entry = find_entry(COUNTER_ENTRY_COPY, content);
    uint64_t answer;

    printf("a copy of title %" PRIu64 " is in entry %" PRIu64 "\n", content, entry);
    answer = counter_check_in(COUNTER_AUDIO, LEDGER, TITLES, RULES, entry, filler);
    show(step, answer);
    while (answer == COUNTER_FILLER) {
        answer = counter_check_in(COUNTER_AUDIO, LEDGER, TITLES, RULES, entry, another_filler());
        show("  again, with another filler", answer);
    }
}

/* The same functions serve pictures; the pair says which tables they are lent, and other tables are refused. */
static void lend_a_picture(void)
{
    /* Picture 1: no more generations, no moves, loans without a limit. Its STI key is a random number of the module. */
    const uint64_t picture = 1, cci = 3, trigger = 0, rights = 0, permits = COUNTER_UNLIMITED;
    const uint64_t title_key = 0x22446688aaccee, sti_key = 0x5eed5eed5eed5e;

    show("format a ledger for pictures", counter_format_ledger(PICTURE_LEDGER, PICTURES, APPLICATION));
    show("format a picture card", counter_format_card(COUNTER_PICTURE, PICTURE_TITLES, PICTURE_RULES, APPLICATION));
    show("register picture 1",
         counter_register(PICTURE_LEDGER, picture, cci, trigger, rights, permits, title_key, sti_key));
    show("check out the picture to entry 7",
         counter_check_out(COUNTER_PICTURE, PICTURE_LEDGER, PICTURE_TITLES, PICTURE_RULES, picture, 7));
    show_copies(COUNTER_PICTURE, PICTURE_TITLES, PICTURE_RULES, picture);
    show("check in entry 7 by an audio call",
         counter_check_in(COUNTER_AUDIO, PICTURE_LEDGER, PICTURE_TITLES, PICTURE_RULES, 7, f1));
    show("check in entry 7 by a picture call",
         counter_check_in(COUNTER_PICTURE, PICTURE_LEDGER, PICTURE_TITLES, PICTURE_RULES, 7, f1));
    show_copies(COUNTER_PICTURE, PICTURE_TITLES, PICTURE_RULES, picture);
}

/* A call in the form in which it is logged or sent: its bytes, and what they say. */
static void show_request(uint64_t kind, const uint64_t arguments[COUNTER_ARGUMENTS])
{
    uint8_t bytes[COUNTER_LONGEST_REQUEST];
    uint64_t read_kind, read[COUNTER_ARGUMENTS];
    size_t used, again;
    uint64_t answer = counter_write_request(bytes, sizeof bytes, kind, arguments, &used);

    show("write a request", answer);
    if (answer != COUNTER_DONE)
        return;
    printf("   ");
    for (size_t i = 0; i < used; i++)
        printf(" %02x", bytes[i]);
    printf("\n");
    answer = counter_read_request(bytes, used, &read_kind, read, &again);
    show("read it back", answer);
    if (answer != COUNTER_DONE)
        return;
    printf("    kind %" PRIu64 ", content %" PRIu64 ", entry %" PRIu64 ", from %zu bytes\n", read_kind, read[0], read[1],
           again);
}

/* The clerk sees what each request would be answered, on what those before it leave, and then commits them. */
static void serve_a_basket(void)
{
    /* The arguments of each call in their order. Title 2 has one permit, so it is lent to entry 8 once entry 7 is back. */
    const struct counter_request basket[COUNTER_BASKET_SIZE] = {
        {COUNTER_REGISTER, {2, 2, 0, 3, 1, 0x77665544332211, 0xeeddccbbaa9988}},
        {COUNTER_CHECK_OUT, {2, 7}},
        {COUNTER_CHECK_OUT, {2, 8}},
        {COUNTER_CHECK_IN, {7, f1}},
        {COUNTER_CHECK_OUT, {2, 8}},
    };
    const char *const steps[] = {"  register title 2", "  check out to entry 7", "  check out to entry 8 too",
                                 "  check in entry 7", "  check out to entry 8"};
    const uint64_t count = sizeof steps / sizeof steps[0];
    uint64_t answers[COUNTER_BASKET_SIZE], as_previewed = 0;
    uint64_t answer = counter_preview(COUNTER_AUDIO, LEDGER, TITLES, RULES, SCRATCH_LEDGER, SCRATCH_TITLES, SCRATCH_RULES,
                                      basket, count, answers);

    show("preview a basket", answer);
    if (answer != COUNTER_DONE)
        return;
    for (uint64_t i = 0; i < count; i++)
        show(steps[i], answers[i]);
    /* Nothing has happened yet: no copy of title 2 is on the card. */
    show_copies(COUNTER_AUDIO, TITLES, RULES, 2);

    printf("commit the basket\n");
    for (uint64_t i = 0; i < count; i++) {
        answer = counter_perform(COUNTER_AUDIO, LEDGER, TITLES, RULES, &basket[i]);
        show(steps[i], answer);
        as_previewed += answer == answers[i];
    }
    printf("    answered as previewed: %" PRIu64 " of %" PRIu64 "\n", as_previewed, count);
    show_copies(COUNTER_AUDIO, TITLES, RULES, 2);
}

/* What an entry of the card is and holds. What it does not have is told as 0. */
static void show_entry(uint64_t entry)
{
    const char *const kinds[] = {"free", "copy", "full", "torn", "spent"};
    uint64_t kind, content, facts[COUNTER_FACT_COUNT];
    uint64_t answer = counter_inspect_entry(COUNTER_AUDIO, TITLES, RULES, entry, &kind, &content, facts);

    show("inspect an entry", answer);
    if (answer == COUNTER_DONE)
        printf("    entry %" PRIu64 ": %s, title %" PRIu64 ", CCI %" PRIu64 "\n", entry, kinds[kind], content,
               facts[COUNTER_FACT_CCI]);
}

/* A title's row, and over its row and the whole card its holders, one where all is well, and the loans that are out. */
static void show_title(uint64_t content)
{
    const char *const states[] = {"empty", "here", "away", "gone", "in no state"};
    uint64_t state, facts[COUNTER_FACT_COUNT], holders, copies;

    if (counter_inspect_row(LEDGER, content, &state, facts) != COUNTER_DONE ||
        counter_inspect_title(COUNTER_AUDIO, LEDGER, TITLES, RULES, content, &holders, &copies) != COUNTER_DONE)
        return;
    printf("    title %" PRIu64 ": %s, rights %" PRIu64 ", permits %" PRIu64 "; holders %" PRIu64 ", copies %" PRIu64 "\n",
           content, states[state], facts[COUNTER_FACT_RIGHTS], facts[COUNTER_FACT_PERMITS], holders, copies);
}

static void show_what_is_there(void)
{
    uint64_t vacant = 0;

    show_entry(7);
    show_entry(8);
    show_title(1);
    show_title(2);
    show("first vacant entry from 7 on", counter_first_vacant(COUNTER_AUDIO, TITLES, RULES, 7, &vacant));
    printf("    entry %" PRIu64 "\n", vacant);
}

/* The first entry that takes a title, or 0 where the card has none. */
static uint64_t first_vacant(void)
{
    uint64_t entry = 0;

    show("first vacant entry", counter_first_vacant(COUNTER_AUDIO, TITLES, RULES, 1, &entry));
    printf("    entry %" PRIu64 "\n", entry);
    return entry;
}

/* A title that is sold onto the card at once: its row is away without ever having been here. */
static void record_title_3(void)
{
    const uint64_t title = 3, cci = 0, trigger = 0, rights = 2, permits = 4;
    const uint64_t title_key = 0x13579bdf02468a, sti_key = 0xa86420fdb97531, hash = 0xfedcba9876543210;
    const uint64_t entry = first_vacant();

    show("record title 3 in it", counter_record(COUNTER_AUDIO, LEDGER, TITLES, RULES, title, entry, cci, trigger, rights,
                                                permits, title_key, sti_key, hash));
    show_entry(entry);
}

static void lend_title_2_again(void)
{
    uint64_t entry;

    take_back("check it in", 2, f1);
    entry = first_vacant();
    show("check out title 2 to it", counter_check_out(COUNTER_AUDIO, LEDGER, TITLES, RULES, 2, entry));
    show_entry(entry);
}

/* Requests from a log or a line, up to their end or to one that cannot be read. One that is refused stops nothing. */
static void serve(const uint8_t *bytes, size_t bytes_len)
{
    const char *const kinds[] = {"no kind", "  register", "  record", "  check out", "  check in", "  move out", "  move in",
                                 "  delete"};
    struct counter_request request;
    size_t at = 0, used;

    printf("serve %zu bytes\n", bytes_len);
    while (at < bytes_len) {
        uint64_t answer = counter_read_request(bytes + at, bytes_len - at, &request.kind, request.arguments, &used);

        if (answer != COUNTER_DONE) {
            show("  no request", answer);
            return;
        }
        show(kinds[request.kind], counter_perform(COUNTER_AUDIO, LEDGER, TITLES, RULES, &request));
        at += used;
    }
    printf("  the end\n");
}

static void serve_streams(void)
{
    /* Title 4 is registered with one permit, lent to entry 20, not to entry 21 too, and taken back. */
    const uint8_t whole[] = {1, 4, 0, 0, 15, 1, 5, 6, 3, 4, 20, 3, 4, 21, 4, 20, 9};
    /* It is lent to entry 20 again. Then comes a check-out without its entry number. */
    const uint8_t cut[] = {3, 4, 20, 3, 4};

    serve(whole, sizeof whole);
    serve(cut, sizeof cut);
}

static void serve_title_1(void)
{
    /* Title 1: one generation, three moves, one copy at a time. The card's secure module supplies keys and hash. */
    const uint64_t title = 1, cci = 2, trigger = 0, rights = 3, permits = 1;
    const uint64_t title_key = 0x11223344556677, sti_key = 0x8899aabbccddee, hash = 0x0123456789abcdef;

    show("register title 1", counter_register(LEDGER, title, cci, trigger, rights, permits, title_key, sti_key));

    show("check out to entry 7", counter_check_out(COUNTER_AUDIO, LEDGER, TITLES, RULES, title, 7));
    show("check out to entry 8 too", counter_check_out(COUNTER_AUDIO, LEDGER, TITLES, RULES, title, 8));
    show_copies(COUNTER_AUDIO, TITLES, RULES, title);
    show_move_in("move in to entry 9 while a copy is out", title, 9, hash);
    take_back("check it in, its own key as the filler", title, title_key);
    show_copies(COUNTER_AUDIO, TITLES, RULES, title);

    show_move_in("move in to entry 9", title, 9, hash);
    show_move_in("move in while the title is away", title, 10, hash);
    show("check out while the title is away", counter_check_out(COUNTER_AUDIO, LEDGER, TITLES, RULES, title, 7));
    show("move out with another hash", counter_move_out(COUNTER_AUDIO, LEDGER, TITLES, RULES, 9, hash + 1, f1, f2, f3, f4));
    show("move out", counter_move_out(COUNTER_AUDIO, LEDGER, TITLES, RULES, 9, hash, f1, f2, f3, f4));
    show_move_in("move in to entry 10", title, 10, hash);
    show("move out: the fourth move", counter_move_out(COUNTER_AUDIO, LEDGER, TITLES, RULES, 10, hash, f1, f2, f3, f4));

    show("delete entry 10", counter_delete(COUNTER_AUDIO, LEDGER, TITLES, RULES, 10, f1, f2, f3, f4));
    show("delete entry 10 again", counter_delete(COUNTER_AUDIO, LEDGER, TITLES, RULES, 10, f1, f2, f3, f4));
    show("register title 1 again", counter_register(LEDGER, title, cci, trigger, rights, permits, title_key, sti_key));
}

int main(void)
{
    show("format a ledger", counter_format_ledger(LEDGER, ROWS, APPLICATION));
    show("format a card", counter_format_card(COUNTER_AUDIO, TITLES, RULES, APPLICATION));
    serve_title_1();
    lend_a_picture();

    /* check-out of title 5 to entry 999; the places after a kind's arguments count for nothing */
    show_request(COUNTER_CHECK_OUT, (const uint64_t[COUNTER_ARGUMENTS]){5, 999});

    serve_a_basket();
    show_what_is_there();
    record_title_3();
    lend_title_2_again();
    serve_streams();
    return 0;
}

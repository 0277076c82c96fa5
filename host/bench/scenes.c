/* The scenes that are timed. See scenes.h. */
#include "scenes.h"

#include <stdio.h>
#include <stdlib.h>
#include <string.h>

#include "plain.h"

#define APPLICATION 7
#define TITLE_KEY 0x11223344556677
#define STI_KEY 0x8899aabbccddee
#define HASH 0x0123456789abcdef
#define F1 0xf1a0a1a2a3a4a5a6
#define F2 0xf2b0b1b2b3b4b5b6
#define F3 0xf3c0c1c2c3c4c5c6
#define F4 0xf4d0d1d2d3d4d5d6

/* CCI, trigger, move rights, permits and keys of every title. */
#define FACTS 2, 0, COUNTER_UNLIMITED, COUNTER_UNLIMITED, TITLE_KEY, STI_KEY

/* The title that calls name, and the entry that is left free for it. */
#define TITLE 1
#define LAST COUNTER_LAST_ENTRY

/* A stream of requests is gone through so often in a batch. */
#define PASSES 16

/* The title of a full entry. */
#define TITLE_OF(entry) (1000 - (entry))

const struct counter proved = {counter_format_ledger, counter_format_card,   counter_register,      counter_record,
                               counter_check_out,     counter_check_in,      counter_move_out,      counter_move_in,
                               counter_delete,        counter_tally,         counter_inspect_entry, counter_inspect_row,
                               counter_inspect_title, counter_first_vacant,  counter_sheet,         counter_read_request,
                               counter_write_request, counter_perform,       counter_preview};
const struct counter plain = {plain_format_ledger, plain_format_card,  plain_register,      plain_record,
                              plain_check_out,     plain_check_in,     plain_move_out,      plain_move_in,
                              plain_delete,        plain_tally,        plain_inspect_entry, plain_inspect_row,
                              plain_inspect_title, plain_first_vacant, plain_sheet,         plain_read_request,
                              plain_write_request, plain_perform,      plain_preview};

struct scene scenes[MOST_SCENES];
size_t scene_count;
_Alignas(64) struct output written;

/* ---------------------------------------------------------------- states */

static void must_be_done(uint64_t answer, const char *what)
{
    if (answer != COUNTER_DONE) {
        printf("%s: %s\n", what, counter_text(answer));
        exit(1);
    }
}

#define EACH(place, run) unsigned place = (run).first; place != 0 && place <= (run).last; place += (run).step

/* A ledger of as many rows as a scene has. */
#define ROWS(scene) ((scene)->rows == 0 ? COUNTER_MOST_ROWS : (scene)->rows)
#define LEDGER_OF(shop, scene) (shop)->ledger, COUNTER_LEDGER_SIZE(ROWS(scene))

void prepare(struct shop *shop, const struct scene *scene)
{
    must_be_done(counter_format_ledger(LEDGER_OF(shop, scene), ROWS(scene), APPLICATION), "a ledger");
    must_be_done(counter_format_card(COUNTER_AUDIO, TITLES(shop), RULES(shop), APPLICATION), "a card");
    must_be_done(counter_register(LEDGER_OF(shop, scene), TITLE, FACTS), "title 1");
    if (scene->lent > TITLE)
        must_be_done(counter_register(LEDGER_OF(shop, scene), scene->lent, FACTS), "the lent title");
    for (EACH(content, scene->here))
        must_be_done(counter_register(LEDGER_OF(shop, scene), content, FACTS), "a title in the ledger");
    for (EACH(entry, scene->copies))
        must_be_done(counter_check_out(COUNTER_AUDIO, LEDGER_OF(shop, scene), TITLES(shop), RULES(shop), scene->lent, entry),
                     "a copy");
    for (EACH(entry, scene->full))
        must_be_done(counter_record(COUNTER_AUDIO, LEDGER_OF(shop, scene), TITLES(shop), RULES(shop), TITLE_OF(entry), entry,
                                    FACTS, HASH),
                     "a title");
    if (scene->stale)
        for (EACH(entry, scene->copies))
            must_be_done(counter_check_in(COUNTER_AUDIO, LEDGER_OF(shop, scene), TITLES(shop), RULES(shop), entry, F1),
                         "a stale copy");
    if (scene->permits != 0)
        shop->ledger[24 * TITLE + 4] = scene->permits;
}

/* ---------------------------------------------------------------- batches */

static uint64_t format_ledgers(const struct counter *counter, struct shop *shop, const struct scene *scene)
{
    uint64_t sum = 0;

    for (unsigned i = 0; i < scene->calls; i++)
        sum += counter->format_ledger(LEDGER(shop), COUNTER_MOST_ROWS, APPLICATION);
    return sum;
}

static uint64_t format_cards(const struct counter *counter, struct shop *shop, const struct scene *scene)
{
    uint64_t sum = 0;

    for (unsigned i = 0; i < scene->calls; i++)
        sum += counter->format_card(COUNTER_AUDIO, TITLES(shop), RULES(shop), APPLICATION);
    return sum;
}

static uint64_t registers(const struct counter *counter, struct shop *shop, const struct scene *scene)
{
    uint64_t sum = 0;

    for (EACH(content, scene->places))
        sum += counter->register_title(LEDGER(shop), content, FACTS);
    return sum;
}

/* By requests that differ in nothing but the row. */
static uint64_t performed_registers(const struct counter *counter, struct shop *shop, const struct scene *scene)
{
    struct counter_request request = {COUNTER_REGISTER, {0, FACTS}};
    uint64_t sum = 0;

    for (EACH(content, scene->places)) {
        request.arguments[0] = content;
        sum += counter->perform(COUNTER_AUDIO, LEDGER(shop), TITLES(shop), RULES(shop), &request);
    }
    return sum;
}

static uint64_t records(const struct counter *counter, struct shop *shop, const struct scene *scene)
{
    uint64_t sum = 0;

    for (EACH(entry, scene->places))
        sum += counter->record(COUNTER_AUDIO, LEDGER(shop), TITLES(shop), RULES(shop), TITLE_OF(entry), entry, FACTS, HASH);
    return sum;
}

static uint64_t check_outs(const struct counter *counter, struct shop *shop, const struct scene *scene)
{
    uint64_t sum = 0;

    for (EACH(entry, scene->places))
        sum += counter->check_out(COUNTER_AUDIO, LEDGER(shop), TITLES(shop), RULES(shop), TITLE, entry);
    return sum;
}

/* By requests that differ in nothing but the entry. */
static uint64_t performed_check_outs(const struct counter *counter, struct shop *shop, const struct scene *scene)
{
    struct counter_request request = {COUNTER_CHECK_OUT, {TITLE, 0}};
    uint64_t sum = 0;

    for (EACH(entry, scene->places)) {
        request.arguments[1] = entry;
        sum += counter->perform(COUNTER_AUDIO, LEDGER(shop), TITLES(shop), RULES(shop), &request);
    }
    return sum;
}

static uint64_t check_ins(const struct counter *counter, struct shop *shop, const struct scene *scene)
{
    uint64_t sum = 0;

    for (EACH(entry, scene->places))
        sum += counter->check_in(COUNTER_AUDIO, LEDGER(shop), TITLES(shop), RULES(shop), entry, F1);
    return sum;
}

static uint64_t move_outs(const struct counter *counter, struct shop *shop, const struct scene *scene)
{
    uint64_t sum = 0;

    for (EACH(entry, scene->places))
        sum += counter->move_out(COUNTER_AUDIO, LEDGER(shop), TITLES(shop), RULES(shop), entry, HASH, F1, F2, F3, F4);
    return sum;
}

static uint64_t deletes(const struct counter *counter, struct shop *shop, const struct scene *scene)
{
    uint64_t sum = 0;

    for (EACH(entry, scene->places))
        sum += counter->delete_entry(COUNTER_AUDIO, LEDGER(shop), TITLES(shop), RULES(shop), entry, F1, F2, F3, F4);
    return sum;
}

/*
 * A full card has room for one move in. So that the next one finds what this one found, the row and the last entry are
 * put back in between: 72 bytes, against a scan of 16,000.
 */
static uint64_t move_ins(const struct counter *counter, struct shop *shop, const struct scene *scene)
{
    uint8_t *row = shop->ledger + 24 * TITLE, *title = shop->titles + 16 * LAST, *rule = shop->rules + 32 * LAST;
    uint8_t old_row[24], old_title[16], old_rule[32];
    uint64_t sum = 0, entries_read;

    memcpy(old_row, row, sizeof old_row);
    memcpy(old_title, title, sizeof old_title);
    memcpy(old_rule, rule, sizeof old_rule);
    for (unsigned i = 0; i < scene->calls; i++) {
        sum += counter->move_in(COUNTER_AUDIO, LEDGER(shop), TITLES(shop), RULES(shop), TITLE, LAST, HASH, &entries_read);
        memcpy(row, old_row, sizeof old_row);
        memcpy(title, old_title, sizeof old_title);
        memcpy(rule, old_rule, sizeof old_rule);
    }
    return sum;
}

static uint64_t refused_move_ins(const struct counter *counter, struct shop *shop, const struct scene *scene)
{
    uint64_t sum = 0, entries_read;

    for (unsigned i = 0; i < scene->calls; i++)
        sum += counter->move_in(COUNTER_AUDIO, LEDGER(shop), TITLES(shop), RULES(shop), TITLE, LAST, HASH, &entries_read);
    return sum;
}

static uint64_t tallies(const struct counter *counter, struct shop *shop, const struct scene *scene)
{
    uint64_t sum = 0, copies = 0;

    for (unsigned i = 0; i < scene->calls; i++)
        sum += counter->tally(COUNTER_AUDIO, TITLES(shop), RULES(shop), scene->content, &copies);
    return sum;
}

static uint64_t inspect_entries(const struct counter *counter, struct shop *shop, const struct scene *scene)
{
    uint64_t sum = 0;

    for (EACH(entry, scene->places))
        sum += counter->inspect_entry(COUNTER_AUDIO, TITLES(shop), RULES(shop), entry, &written.told[0], &written.told[1],
                                      written.facts);
    return sum;
}

/* Each call of the scene is one of every entry. */
static uint64_t inspect_cards(const struct counter *counter, struct shop *shop, const struct scene *scene)
{
    struct scene entries = {.places = {1, LAST, 1}};
    uint64_t sum = 0;

    for (unsigned i = 0; i < scene->calls; i++)
        sum += inspect_entries(counter, shop, &entries);
    return sum;
}

static uint64_t inspect_rows(const struct counter *counter, struct shop *shop, const struct scene *scene)
{
    uint64_t sum = 0;

    for (EACH(content, scene->places))
        sum += counter->inspect_row(LEDGER(shop), content, &written.told[0], written.facts);
    return sum;
}

static uint64_t inspect_titles(const struct counter *counter, struct shop *shop, const struct scene *scene)
{
    uint64_t sum = 0;

    for (unsigned i = 0; i < scene->calls; i++)
        sum += counter->inspect_title(COUNTER_AUDIO, LEDGER(shop), TITLES(shop), RULES(shop), scene->content,
                                      &written.told[0], &written.told[1]);
    return sum;
}

static uint64_t first_vacants(const struct counter *counter, struct shop *shop, const struct scene *scene)
{
    uint64_t sum = 0;

    for (unsigned i = 0; i < scene->calls; i++)
        sum += counter->first_vacant(COUNTER_AUDIO, TITLES(shop), RULES(shop), 1, &written.told[0]);
    return sum;
}

static uint64_t sheets(const struct counter *counter, struct shop *shop, const struct scene *scene)
{
    uint64_t sum = 0;
    size_t used = 0;

    for (unsigned i = 0; i < scene->calls; i++)
        sum += counter->sheet(COUNTER_AUDIO, LEDGER_OF(shop, scene), TITLES(shop), RULES(shop), written.bytes,
                              sizeof written.bytes, &used);
    return sum;
}

static uint64_t read_requests(const struct counter *counter, struct shop *shop, const struct scene *scene)
{
    const struct stream *stream = scene->stream;
    uint64_t kind = 0, arguments[COUNTER_ARGUMENTS] = {0}, sum = 0;
    size_t at = 0, used = 0;

    (void)shop;
    for (unsigned pass = 0; pass < PASSES; pass++, at = 0)
        for (unsigned i = 0; i < REQUESTS; i++, at += used)
            sum += counter->read_request(stream->bytes + at, stream->length - at, &kind, arguments, &used);
    return sum;
}

static uint64_t write_requests(const struct counter *counter, struct shop *shop, const struct scene *scene)
{
    const struct stream *stream = scene->stream;
    uint64_t sum = 0;
    size_t at = 0, used = 0;

    (void)shop;
    for (unsigned pass = 0; pass < PASSES; pass++, at = 0)
        for (unsigned i = 0; i < REQUESTS; i++, at += used)
            sum += counter->write_request(written.bytes + at, sizeof written.bytes - at, stream->kind[i],
                                          stream->arguments[i], &used);
    return sum;
}

static uint64_t previews(const struct counter *counter, struct shop *shop, const struct scene *scene)
{
    const struct basket *basket = scene->basket;
    struct shop *scratch = &written.scratch;
    uint64_t sum = 0;

    for (unsigned i = 0; i < scene->calls; i++)
        sum += counter->preview(COUNTER_AUDIO, LEDGER(shop), TITLES(shop), RULES(shop), LEDGER(scratch), TITLES(scratch),
                                RULES(scratch), basket->requests, basket->count, written.answers);
    return sum;
}

/* ---------------------------------------------------------------- baskets */

#define REGISTER(content) {COUNTER_REGISTER, {content, FACTS}}
#define RECORD(content, entry) {COUNTER_RECORD, {content, entry, FACTS, HASH}}
#define CHECK_OUT(content, entry) {COUNTER_CHECK_OUT, {content, entry}}
#define CHECK_IN(entry) {COUNTER_CHECK_IN, {entry, F1}}
#define MOVE_OUT(entry) {COUNTER_MOVE_OUT, {entry, HASH, F1, F2, F3, F4}}
#define MOVE_IN(content, entry) {COUNTER_MOVE_IN, {content, entry, HASH}}
#define DELETE(entry) {COUNTER_DELETE, {entry, F1, F2, F3, F4}}

/*
 * Up to entry 899 even entries have copies of title 1, and odd ones hold titles; those after it are free. Titles 2, 4 to 98
 * are here.
 */
#define IN_USE .card = COPIES_AND_TITLES, .here = {2, 98, 2}, .copies = {2, 898, 2}, .lent = 1, .full = {1, 899, 2}

/* Each kind on what the shop has, and then on what the requests before it left. */
static const struct basket all_done = {
    16, COUNTER_DONE,
    {REGISTER(3), RECORD(5, 901), CHECK_OUT(1, 902), CHECK_IN(2), MOVE_OUT(1), MOVE_IN(2, 903), DELETE(3), DELETE(4),
     REGISTER(7), CHECK_OUT(7, 904), CHECK_IN(904), MOVE_IN(7, 904), MOVE_OUT(904), RECORD(9, 905), DELETE(905),
     CHECK_OUT(1, 905)}};

/* Each on an entry that is not of the kind needed, which all calls but register test. */
static const struct basket all_refused = {
    16, COUNTER_KIND_OF_ENTRY,
    {RECORD(5, 1), CHECK_OUT(1, 2), CHECK_IN(1), MOVE_OUT(2), MOVE_IN(2, 3), DELETE(901), RECORD(7, 4), CHECK_OUT(1, 5),
     CHECK_IN(902), MOVE_OUT(903), MOVE_IN(4, 6), DELETE(904), CHECK_OUT(2, 7), CHECK_IN(3), MOVE_OUT(8), MOVE_IN(6, 9)}};

static const struct basket no_request = {0, COUNTER_DONE, {{0, {0}}}};

/* ---------------------------------------------------------------- scenes */

#define EMPTY "empty"
#define COPIES "copies of one title"
#define TITLES_THAT_DIFFER "different titles"
#define COPIES_AND_TITLES "copies and titles"

/* Entries, or rows. The last entry stays free where a call needs one on a full card. */
#define ALL {1, LAST, 1}
#define ALL_BUT_LAST {1, LAST - 1, 1}
#define ALL_BUT_FIRST {2, LAST, 1}
#define ODD {1, LAST, 2}
#define ODD_BUT_LAST {1, LAST - 2, 2}
#define EVEN {2, LAST - 1, 2}

#define SCANS 128
#define OP .section = "operation"
#define NO .section = "refusal"
#define ON .section = "scan", .batch = tallies, .calls = SCANS, .shops = 1
#define CARD .section = "card", .operation = "inspect card", .batch = inspect_cards, .calls = 8, .shops = 1
#define SHEET .section = "sheet", .batch = sheets, .shops = 1
#define PREVIEW .section = "preview", IN_USE, .batch = previews, .calls = 16, .shops = 1

static const struct scene fixed[] = {
    {OP, .operation = "format ledger", .card = "-", .batch = format_ledgers, .calls = SCANS, .shops = 1},
    {OP, .operation = "format card", .card = "-", .batch = format_cards, .calls = SCANS, .shops = 1},
    {OP, .operation = "register", .card = "-", .batch = registers, .places = ALL_BUT_FIRST, .shops = 8},
    {OP, .operation = "perform, register", .card = "-", .batch = performed_registers, .places = ALL_BUT_FIRST, .shops = 8},
    {OP, .operation = "record", .card = EMPTY, .batch = records, .places = ALL_BUT_LAST, .shops = 4},
    {OP, .operation = "record", .card = COPIES, .copies = EVEN, .lent = 1, .batch = records, .places = ODD_BUT_LAST,
     .shops = 8},
    {OP, .operation = "record", .card = TITLES_THAT_DIFFER, .full = EVEN, .batch = records, .places = ODD_BUT_LAST,
     .shops = 8},
    {OP, .operation = "check-out", .card = EMPTY, .batch = check_outs, .places = ALL, .shops = 4},
    {OP, .operation = "check-out", .card = COPIES, .copies = EVEN, .lent = 1, .batch = check_outs, .places = ODD, .shops = 8},
    {OP, .operation = "check-out", .card = TITLES_THAT_DIFFER, .full = EVEN, .batch = check_outs, .places = ODD, .shops = 8},
    {OP, .operation = "perform, check-out", .card = EMPTY, .batch = performed_check_outs, .places = ALL, .shops = 4},
    {OP, .operation = "check-in", .card = COPIES, .copies = ALL, .lent = 1, .batch = check_ins, .places = ALL, .shops = 4},
    {OP, .operation = "check-in", .card = TITLES_THAT_DIFFER, .copies = ODD, .lent = 1, .full = EVEN, .batch = check_ins,
     .places = ODD, .shops = 8},
    {OP, .operation = "move out", .card = COPIES, .copies = ODD, .lent = 1, .full = EVEN, .batch = move_outs,
     .places = EVEN, .shops = 8},
    {OP, .operation = "move out", .card = TITLES_THAT_DIFFER, .full = ALL_BUT_LAST, .batch = move_outs,
     .places = ALL_BUT_LAST, .shops = 4},
    {OP, .operation = "move in", .card = EMPTY, .batch = move_ins, .calls = SCANS, .shops = 1},
    {OP, .operation = "move in", .card = COPIES, .copies = ALL_BUT_LAST, .lent = 2, .batch = move_ins, .calls = SCANS,
     .shops = 1},
    {OP, .operation = "move in", .card = TITLES_THAT_DIFFER, .full = ALL_BUT_LAST, .batch = move_ins, .calls = SCANS,
     .shops = 1},
    {OP, .operation = "delete copy", .card = COPIES, .copies = ALL, .lent = 1, .batch = deletes, .places = ALL, .shops = 4},
    {OP, .operation = "delete copy", .card = TITLES_THAT_DIFFER, .copies = ODD, .lent = 1, .full = EVEN, .batch = deletes,
     .places = ODD, .shops = 8},
    {OP, .operation = "delete title", .card = COPIES, .copies = ODD, .lent = 1, .full = EVEN, .batch = deletes,
     .places = EVEN, .shops = 8},
    {OP, .operation = "delete title", .card = TITLES_THAT_DIFFER, .full = ALL_BUT_LAST, .batch = deletes,
     .places = ALL_BUT_LAST, .shops = 4},
    {OP, .operation = "tally", .card = EMPTY, .batch = tallies, .content = 1, .calls = SCANS, .shops = 1},
    {OP, .operation = "tally, title in all", .card = COPIES, .copies = ALL, .lent = 1, .batch = tallies, .content = 1,
     .calls = SCANS, .shops = 1},
    {OP, .operation = "tally, title in none", .card = COPIES, .copies = ALL, .lent = 1, .batch = tallies, .content = 2,
     .calls = SCANS, .shops = 1},
    {OP, .operation = "tally", .card = TITLES_THAT_DIFFER, .full = ALL_BUT_LAST, .batch = tallies, .content = 1,
     .calls = SCANS, .shops = 1},
    {OP, .operation = "inspect entry, full", .card = TITLES_THAT_DIFFER, .full = ALL_BUT_LAST, .batch = inspect_entries,
     .places = ALL_BUT_LAST, .shops = 8},
    {OP, .operation = "inspect entry, copy", .card = COPIES, .copies = ALL, .lent = 1, .batch = inspect_entries, .places = ALL,
     .shops = 8},
    {OP, .operation = "inspect entry, free", .card = EMPTY, .batch = inspect_entries, .places = ALL, .shops = 8},
    {OP, .operation = "inspect row, here", .card = "-", .here = ALL_BUT_FIRST, .batch = inspect_rows, .places = ALL,
     .shops = 8},
    {OP, .operation = "inspect title", .card = EMPTY, .batch = inspect_titles, .content = 1, .calls = SCANS, .shops = 1},
    {OP, .operation = "inspect title", .card = COPIES, .copies = ALL, .lent = 1, .batch = inspect_titles, .content = 1,
     .calls = SCANS, .shops = 1},
    {OP, .operation = "inspect title", .card = TITLES_THAT_DIFFER, .full = ALL_BUT_LAST, .batch = inspect_titles, .content = 1,
     .calls = SCANS, .shops = 1},
    {OP, .operation = "first vacant", .card = EMPTY, .batch = first_vacants, .calls = 4000, .shops = 1},
    {OP, .operation = "first vacant, the last", .card = COPIES, .copies = ALL_BUT_LAST, .lent = 1, .batch = first_vacants,
     .calls = SCANS, .shops = 1},
    {OP, .operation = "first vacant, the last", .card = TITLES_THAT_DIFFER, .full = ALL_BUT_LAST, .batch = first_vacants,
     .calls = SCANS, .shops = 1},

    {NO, .operation = "register, row taken", .card = "-", .full = ALL_BUT_LAST, .batch = registers, .places = ALL,
     .shops = 8, .answer = COUNTER_STATE_OF_ROW},
    {NO, .operation = "check-out, entry in use", .card = COPIES, .copies = ALL, .lent = 1, .batch = check_outs,
     .places = ALL, .shops = 8, .answer = COUNTER_KIND_OF_ENTRY},
    {NO, .operation = "check-in, permits 14", .card = COPIES, .copies = ALL, .lent = 1, .permits = 14, .batch = check_ins,
     .places = ALL, .shops = 4, .answer = COUNTER_PERMITS_FULL},
    {NO, .operation = "move in, copy in entry 1", .card = TITLES_THAT_DIFFER, .copies = {1, 1, 1}, .lent = 1,
     .full = {2, LAST - 1, 1}, .batch = refused_move_ins, .calls = 4000, .shops = 1, .answer = COUNTER_COPY_OUT},
    {NO, .operation = "move in, copy in entry 998", .card = TITLES_THAT_DIFFER, .copies = {LAST - 1, LAST - 1, 1}, .lent = 1,
     .full = {1, LAST - 2, 1}, .batch = refused_move_ins, .calls = SCANS, .shops = 1, .answer = COUNTER_COPY_OUT},

    {ON, .operation = "no entry has the title", .card = EMPTY, .content = 1},
    {ON, .operation = "no entry has the title", .card = COPIES, .copies = ALL, .lent = 1, .content = 2},
    {ON, .operation = "no entry has the title", .card = TITLES_THAT_DIFFER, .full = ALL_BUT_LAST, .content = 1},
    {ON, .operation = "every entry has a copy", .card = COPIES, .copies = ALL, .lent = 1, .content = 1},
    {ON, .operation = "every entry has it, flag 0", .card = "copies checked in", .copies = ALL, .lent = 1, .stale = 1,
     .content = 1},

    {CARD, .card = EMPTY},
    {CARD, .card = COPIES, .copies = ALL, .lent = 1},
    {CARD, .card = TITLES_THAT_DIFFER, .full = ALL_BUT_LAST},
    {CARD, .card = COPIES_AND_TITLES, .copies = EVEN, .lent = 1, .full = ODD_BUT_LAST},

    {SHEET, .operation = "64 rows", .card = EMPTY, .rows = 64, .here = {2, 64, 1}, .calls = 32},
    {SHEET, .operation = "64 rows", .card = COPIES_AND_TITLES, .rows = 64, .here = {3, 63, 2}, .copies = {1, 935, 1}, .lent = 1,
     .full = {936, LAST - 1, 2}, .calls = 32},
    {SHEET, .operation = "64 rows", .card = "copies checked in", .rows = 64, .here = {2, 64, 1}, .copies = ALL, .lent = 1,
     .stale = 1, .calls = 32},
    {SHEET, .operation = "999 rows", .card = COPIES_AND_TITLES, .here = EVEN, .copies = EVEN, .lent = 1, .full = ODD_BUT_LAST,
     .calls = 4},

    {PREVIEW, .operation = "16 requests, all done", .basket = &all_done},
    {PREVIEW, .operation = "16 requests, all refused", .basket = &all_refused},
    {PREVIEW, .operation = "no request", .basket = &no_request},
};

/* Numbers of one byte each, or as long as the arguments allow. */
static void make_stream(struct stream *stream, uint64_t first_kind, uint64_t last_kind, int long_numbers)
{
    static const uint64_t short_numbers[8][COUNTER_ARGUMENTS] = {{0}, {1, 2, 0, 3, 1, 5, 6}, {1, 7, 2, 0, 3, 1, 5, 6, 9}, {1, 7}, {7, 9},
                                                 {7, 9, 1, 2, 3, 4}, {1, 9, 0}, {7, 1, 2, 3, 4}};
    static const uint64_t usual_numbers[8][COUNTER_ARGUMENTS] = {{0}, {500, FACTS}, {500, 800, FACTS, HASH}, {500, 800}, {800, F1},
                                                 {800, HASH, F1, F2, F3, F4}, {500, 800, HASH}, {800, F1, F2, F3, F4}};
    size_t used = 0;

    stream->length = 0;
    for (unsigned i = 0; i < REQUESTS; i++, stream->length += used) {
        uint64_t kind = first_kind + i % (last_kind - first_kind + 1);

        stream->kind[i] = kind;
        memcpy(stream->arguments[i], (long_numbers ? usual_numbers : short_numbers)[kind], sizeof stream->arguments[i]);
        must_be_done(plain_write_request(stream->bytes + stream->length, sizeof stream->bytes - stream->length, kind,
                                         stream->arguments[i], &used),
                     "a request");
    }
}

static void add(struct scene scene)
{
    if (scene_count == MOST_SCENES) {
        printf("too many scenes\n");
        exit(1);
    }
    if (scene.calls == 0)
        scene.calls = (scene.places.last - scene.places.first) / scene.places.step + 1;
    scenes[scene_count++] = scene;
}

static void add_requests(void)
{
    static const struct {
        const char *name;
        uint64_t first_kind, last_kind;
        int long_numbers;
    } streams[] = {{"check-out", 3, 3, 1}, {"record", 2, 2, 1}, {"all kinds", 1, 7, 1}, {"all, short numbers", 1, 7, 0}};
    static struct stream made[4];

    for (size_t i = 0; i < 4; i++) {
        struct scene scene = {OP, .card = streams[i].name, .calls = PASSES * REQUESTS, .shops = 1, .stream = &made[i]};

        make_stream(&made[i], streams[i].first_kind, streams[i].last_kind, streams[i].long_numbers);
        scene.operation = "read request";
        scene.batch = read_requests;
        add(scene);
        scene.operation = "write request";
        scene.batch = write_requests;
        add(scene);
    }
}

/* The first entries are in use, as many as are wanted; title 1 moves in, or is counted. */
static void add_growth(unsigned in_use)
{
    struct run used = {in_use == 0 ? 0 : 1, in_use, 1};
    struct scene copies = {.section = "growth", .card = COPIES, .copies = used, .lent = 2, .in_use = in_use,
                           .calls = SCANS, .shops = 1};
    struct scene full = {.section = "growth", .card = TITLES_THAT_DIFFER, .full = used, .in_use = in_use,
                         .calls = SCANS, .shops = 1};

    copies.operation = full.operation = "move in";
    copies.batch = full.batch = move_ins;
    add(copies);
    add(full);
    copies.operation = full.operation = "tally";
    copies.batch = full.batch = tallies;
    copies.content = copies.lent;
    full.content = TITLE;
    add(copies);
    add(full);
}

void make_scenes(void)
{
    for (size_t i = 0; i < sizeof fixed / sizeof fixed[0]; i++)
        add(fixed[i]);
    add_requests();
    for (unsigned in_use = 0; in_use < 1000; in_use += 100)
        add_growth(in_use);
    add_growth(LAST - 1);
}

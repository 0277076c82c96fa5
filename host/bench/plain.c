/* The counter's operations in plain C. See plain.h. */
#include "plain.h"

#include <string.h>

#define ROW 24
#define TITLE_HALF 16
#define RULE_HALF 32

/* ---------------------------------------------------------------- fields: the most significant byte comes first */

static inline uint64_t load16(const uint8_t *at)
{
    uint16_t field;

    memcpy(&field, at, sizeof field);
    return __builtin_bswap16(field);
}

static inline uint64_t load64(const uint8_t *at)
{
    uint64_t field;

    memcpy(&field, at, sizeof field);
    return __builtin_bswap64(field);
}

static inline void store16(uint8_t *at, uint64_t value)
{
    uint16_t field = __builtin_bswap16((uint16_t)value);

    memcpy(at, &field, sizeof field);
}

static inline void store64(uint8_t *at, uint64_t value)
{
    uint64_t field = __builtin_bswap64(value);

    memcpy(at, &field, sizeof field);
}

/* ---------------------------------------------------------------- arguments */

#define KEY_BITS (((uint64_t)1 << 56) - 1)

/* A title's facts. */
struct facts {
    uint64_t cci, trigger, rights, permits, title_key, sti_key;
};

/* Content IDs, entry numbers and the rows of a ledger are 1 to 999; 0 wraps to the top. */
static inline int is_numbered(uint64_t number)
{
    return number - 1 < 999;
}

static inline int are_facts(const struct facts *facts)
{
    return facts->cci <= 3 && facts->cci != 1 && facts->trigger <= 1 && facts->rights <= COUNTER_UNLIMITED &&
           facts->permits <= COUNTER_UNLIMITED && facts->title_key <= KEY_BITS && facts->sti_key <= KEY_BITS;
}

/* Permits or move rights after one is used. */
static inline uint64_t one_less(uint64_t count)
{
    return count == COUNTER_UNLIMITED ? count : count - 1;
}

/* The CCI of a copy: one generation is used up. */
static inline uint64_t copy_cci(uint64_t cci)
{
    return cci == 2 ? 3 : cci;
}

/* ---------------------------------------------------------------- heads */

/* The rows of a ledger, or 0 where its length or head is wrong. */
static inline uint64_t rows_of(const uint8_t *ledger, size_t length)
{
    uint64_t rows;

    if (length < ROW)
        return 0;
    rows = load16(ledger + 2);
    return is_numbered(rows) && length == COUNTER_LEDGER_SIZE(rows) ? rows : 0;
}

/*
 * The identifiers in the first two of a head's eight bytes, by the pair: "A1" and "M1", or "P1" in both tables. To load one
 * takes less time than to choose between two constants.
 */
static const uint64_t titles_identifier[] = {[COUNTER_AUDIO] = 0x4131000000000000, [COUNTER_PICTURE] = 0x5031000000000000};
static const uint64_t rules_identifier[] = {[COUNTER_AUDIO] = 0x4d31000000000000, [COUNTER_PICTURE] = 0x5031000000000000};

/* Eight bytes at a time, those that are ignored masked out. The right identifier leaves 0 in its place. */
static inline int is_title_table(bool pair, const uint8_t *titles, size_t length)
{
    uint64_t front;

    if (length != COUNTER_TITLES_SIZE)
        return 0;
    front = (load64(titles) & 0xffff00ffffffffff) ^ titles_identifier[pair];
    return (front == 0x0000000900003e80 || front == 0x0000001000003e80) &&
           (load64(titles + 8) & 0xffffffffffff0000) == 0x000003e710010000;
}

static inline int is_rule_table(bool pair, const uint8_t *rules, size_t length)
{
    return length == COUNTER_RULES_SIZE &&
           ((load64(rules) & 0xffff0000ffffffff) ^ rules_identifier[pair]) == 0x0000000000007d00 && rules[3] >= 0x11 &&
           (load64(rules + 8) & 0x0000ffffffff0000) == 0x000003e720020000;
}

/* What is wrong with a card, whatever its application number, or 0. */
static inline uint64_t wrong_card(bool pair, const uint8_t *titles, size_t titles_len, const uint8_t *rules, size_t rules_len)
{
    if (!is_title_table(pair, titles, titles_len))
        return COUNTER_TITLES;
    if (!is_rule_table(pair, rules, rules_len))
        return COUNTER_RULES;
    return COUNTER_DONE;
}

/* What is wrong with a ledger and a card, or 0. */
static inline uint64_t wrong_buffers(bool pair, const uint8_t *ledger, size_t ledger_len, const uint8_t *titles,
                                     size_t titles_len, const uint8_t *rules, size_t rules_len)
{
    uint64_t wrong;

    if (rows_of(ledger, ledger_len) == 0)
        return COUNTER_LEDGER;
    wrong = wrong_card(pair, titles, titles_len, rules, rules_len);
    if (wrong)
        return wrong;
    return load16(rules + 8) == load16(ledger) ? COUNTER_DONE : COUNTER_RULES;
}

/* ---------------------------------------------------------------- entries */

/* Bytes 8 to 15 of a half: the availability flag is the top bit, the content ID the low ten. */
#define FLAG ((uint64_t)1 << 63)
#define ID_BITS ((uint64_t)0x3ff)

enum entry_kind {
    FREE = COUNTER_ENTRY_FREE,
    COPY = COUNTER_ENTRY_COPY,
    FULL = COUNTER_ENTRY_FULL,
    TORN = COUNTER_ENTRY_TORN,
    SPENT = COUNTER_ENTRY_SPENT
};

/* The content ID of a usable half, or 0: no usable half has ID 0. */
static inline uint64_t usable_id(const uint8_t *half)
{
    uint64_t tail = load64(half + 8);

    return tail & FLAG ? tail & ID_BITS : 0;
}

/* The content ID of a half, usable or not. */
static inline uint64_t id_of(const uint8_t *half)
{
    return load16(half + 14) & ID_BITS;
}

static inline uint64_t cci_of(const uint8_t *title)
{
    return title[0] & 3;
}

/* The key of either half. */
static inline uint64_t key_of(const uint8_t *half)
{
    return load64(half) & KEY_BITS;
}

/* Free or spent, which are one kind to the calls that put a title in an entry. */
static inline int is_vacant(const uint8_t *title, const uint8_t *rule)
{
    return usable_id(title) == 0 && usable_id(rule) == 0;
}

/* Flag 0 and an ID from 1 to 999, of a title half that is not usable: 0 wraps to the top, and the flag is above all IDs. */
static inline int is_stale(const uint8_t *title)
{
    return is_numbered(load64(title + 8) & (FLAG | ID_BITS));
}

static inline enum entry_kind kind_of(const uint8_t *title, const uint8_t *rule)
{
    uint64_t title_id = usable_id(title), rule_id = usable_id(rule);

    if (title_id == 0)
        return rule_id != 0 ? TORN : is_stale(title) ? SPENT : FREE;
    if (title_id > 999 || cci_of(title) == 1)
        return TORN;
    if (rule_id == 0)
        return COPY;
    return rule_id == title_id ? FULL : TORN;
}

static inline void write_title(uint8_t *title, uint64_t content, uint64_t cci, uint64_t key)
{
    store64(title, cci << 56 | key);
    store64(title + 8, FLAG | content);
}

/* The hash starts at byte 18, so that it lies across the last two fields. */
static inline void write_rule(uint8_t *rule, uint64_t content, const struct facts *facts, uint64_t hash)
{
    store64(rule, facts->sti_key);
    store64(rule + 8, FLAG | content);
    store64(rule + 16, facts->trigger << 63 | facts->rights << 52 | facts->permits << 48 | hash >> 16);
    store64(rule + 24, hash << 48);
}

static inline void wipe_title(uint8_t *title, uint64_t f1)
{
    store64(title, f1);
    title[8] &= 0x7f;
}

static inline void wipe_rule(uint8_t *rule, uint64_t f2, uint64_t f3, uint64_t f4)
{
    store64(rule, f2);
    rule[8] &= 0x7f;
    store64(rule + 16, f3);
    store64(rule + 24, f4);
}

static inline int filler_is_key(const uint8_t *half, uint64_t filler)
{
    return (filler & KEY_BITS) == key_of(half);
}

/* A picture's STI key may stay in place. A filler is seldom the key, so the pair, which is asked last, is seldom asked. */
static inline int leaves_sti_key(bool pair, const uint8_t *rule, uint64_t f2)
{
    return filler_is_key(rule, f2) && pair == COUNTER_AUDIO;
}

static inline struct facts facts_of_entry(const uint8_t *title, const uint8_t *rule)
{
    struct facts facts = {cci_of(title), rule[16] >> 7, rule[17] >> 4, rule[17] & 15, key_of(title), key_of(rule)};

    return facts;
}

/* ---------------------------------------------------------------- rows */

enum row_state {
    EMPTY = COUNTER_ROW_EMPTY,
    HERE = COUNTER_ROW_HERE,
    AWAY = COUNTER_ROW_AWAY,
    GONE = COUNTER_ROW_GONE,
    NO_STATE = COUNTER_ROW_NO_STATE
};

static inline int is_here(const uint8_t *row)
{
    return row[0] == HERE && row[1] <= 3 && row[1] != 1 && row[2] <= 1 && row[3] <= COUNTER_UNLIMITED &&
           row[4] <= COUNTER_UNLIMITED;
}

static inline struct facts facts_of_row(const uint8_t *row)
{
    struct facts facts = {row[1], row[2], row[3], row[4], load64(row + 8) >> 8, load64(row + 16) >> 8};

    return facts;
}

static inline void write_here(uint8_t *row, const struct facts *facts)
{
    store64(row, (uint64_t)HERE << 56 | facts->cci << 48 | facts->trigger << 40 | facts->rights << 32 | facts->permits << 24);
    store64(row + 8, facts->title_key << 8);
    store64(row + 16, facts->sti_key << 8);
}

/* Any state but here. */
static inline void write_state(uint8_t *row, enum row_state state)
{
    memset(row, 0, ROW);
    row[0] = (uint8_t)state;
}

/* ---------------------------------------------------------------- formatting */

uint64_t plain_format_ledger(uint8_t *ledger, size_t ledger_len, uint64_t rows, uint16_t application)
{
    if (!is_numbered(rows))
        return COUNTER_CONTENT_ID;
    if (ledger_len != COUNTER_LEDGER_SIZE(rows))
        return COUNTER_LEDGER;
    memset(ledger, 0, ledger_len);
    store16(ledger, application);
    store16(ledger + 2, rows);
    return COUNTER_DONE;
}

uint64_t plain_format_card(bool pair, uint8_t *titles, size_t titles_len, uint8_t *rules, size_t rules_len,
                           uint16_t application)
{
    if (titles_len != COUNTER_TITLES_SIZE)
        return COUNTER_TITLES;
    if (rules_len != COUNTER_RULES_SIZE)
        return COUNTER_RULES;
    memset(titles, 0, COUNTER_TITLES_SIZE);
    store64(titles, titles_identifier[pair] | 0x0000001000003e80);
    store64(titles + 8, 0x000003e710010000);
    memset(rules, 0, COUNTER_RULES_SIZE);
    store64(rules, rules_identifier[pair] | 0x0000001100007d00);
    store64(rules + 8, (uint64_t)application << 48 | 0x000003e720020000);
    return COUNTER_DONE;
}

/* ---------------------------------------------------------------- copies */

/*
 * Of the halves with the flag and this content ID, which one load and one comparison find, those of a copy. The flag and
 * the ID stay in the order of their bytes, so that nothing is swapped on the way.
 */
struct sought {
    uint64_t mask, tail;
};

static inline struct sought seek(uint64_t content)
{
    struct sought sought = {__builtin_bswap64(FLAG | ID_BITS), __builtin_bswap64(FLAG | content)};

    return sought;
}

static inline int has_flag_and_id(const uint8_t *title, struct sought sought)
{
    uint64_t tail;

    memcpy(&tail, title + 8, sizeof tail);
    return (tail & sought.mask) == sought.tail;
}

static inline int is_copy(const uint8_t *title, const uint8_t *rule, struct sought sought)
{
    return has_flag_and_id(title, sought) && cci_of(title) != 1 && usable_id(rule) == 0;
}

/* The first entry that is a copy of a title; 0 where none is. Counted in entries and not in bytes, the loop takes 40 % more. */
static size_t first_copy(const uint8_t *titles, const uint8_t *rules, uint64_t content)
{
    struct sought sought = seek(content);

    for (size_t at = TITLE_HALF; at < COUNTER_TITLES_SIZE; at += TITLE_HALF)
        if (is_copy(titles + at, rules + 2 * at, sought))
            return at / TITLE_HALF;
    return 0;
}

uint64_t plain_tally(bool pair, const uint8_t *titles, size_t titles_len, const uint8_t *rules, size_t rules_len,
                     uint64_t content, uint64_t *copies)
{
    struct sought sought = seek(content);
    uint64_t count = 0;

    if (!is_numbered(content))
        return COUNTER_CONTENT_ID;
    /* As written out here. By wrong_card gcc makes another loop below, which takes 70 % more on a card of copies. */
    if (!is_title_table(pair, titles, titles_len))
        return COUNTER_TITLES;
    if (!is_rule_table(pair, rules, rules_len))
        return COUNTER_RULES;
    for (size_t entry = 1; entry <= COUNTER_LAST_ENTRY; entry++)
        if (is_copy(titles + TITLE_HALF * entry, rules + RULE_HALF * entry, sought))
            count++;
    *copies = count;
    return COUNTER_DONE;
}

/* ---------------------------------------------------------------- the seven calls */

uint64_t plain_register(uint8_t *ledger, size_t ledger_len, uint64_t content, uint64_t cci, uint64_t trigger,
                        uint64_t rights, uint64_t permits, uint64_t title_key, uint64_t sti_key)
{
    struct facts facts = {cci, trigger, rights, permits, title_key, sti_key};
    uint64_t rows;
    uint8_t *row;

    if (!is_numbered(content))
        return COUNTER_CONTENT_ID;
    if (!are_facts(&facts))
        return COUNTER_FACTS;
    rows = rows_of(ledger, ledger_len);
    if (rows == 0)
        return COUNTER_LEDGER;
    row = ledger + ROW * content;
    if (content > rows || row[0] != EMPTY)
        return COUNTER_STATE_OF_ROW;
    write_here(row, &facts);
    return COUNTER_DONE;
}

uint64_t plain_record(bool pair, uint8_t *ledger, size_t ledger_len, uint8_t *titles, size_t titles_len, uint8_t *rules,
                      size_t rules_len, uint64_t content, uint64_t entry, uint64_t cci, uint64_t trigger, uint64_t rights,
                      uint64_t permits, uint64_t title_key, uint64_t sti_key, uint64_t hash)
{
    struct facts facts = {cci, trigger, rights, permits, title_key, sti_key};
    uint8_t *row, *title, *rule;
    uint64_t wrong;

    if (!is_numbered(content))
        return COUNTER_CONTENT_ID;
    if (!is_numbered(entry))
        return COUNTER_ENTRY_NUMBER;
    if (!are_facts(&facts))
        return COUNTER_FACTS;
    wrong = wrong_buffers(pair, ledger, ledger_len, titles, titles_len, rules, rules_len);
    if (wrong)
        return wrong;
    row = ledger + ROW * content;
    title = titles + TITLE_HALF * entry;
    rule = rules + RULE_HALF * entry;
    if (!is_vacant(title, rule))
        return COUNTER_KIND_OF_ENTRY;
    if (content > load16(ledger + 2) || row[0] != EMPTY)
        return COUNTER_STATE_OF_ROW;
    write_title(title, content, cci, title_key);
    write_rule(rule, content, &facts, hash);
    write_state(row, AWAY);
    return COUNTER_DONE;
}

uint64_t plain_check_out(bool pair, uint8_t *ledger, size_t ledger_len, uint8_t *titles, size_t titles_len,
                         const uint8_t *rules, size_t rules_len, uint64_t content, uint64_t entry)
{
    uint8_t *row, *title;
    uint64_t wrong;

    if (!is_numbered(content))
        return COUNTER_CONTENT_ID;
    if (!is_numbered(entry))
        return COUNTER_ENTRY_NUMBER;
    wrong = wrong_buffers(pair, ledger, ledger_len, titles, titles_len, rules, rules_len);
    if (wrong)
        return wrong;
    row = ledger + ROW * content;
    title = titles + TITLE_HALF * entry;
    if (!is_vacant(title, rules + RULE_HALF * entry))
        return COUNTER_KIND_OF_ENTRY;
    if (content > load16(ledger + 2) || !is_here(row))
        return COUNTER_STATE_OF_ROW;
    if (row[4] == 0)
        return COUNTER_NOTHING_LEFT;
    write_title(title, content, copy_cci(row[1]), load64(row + 8) >> 8);
    row[4] = (uint8_t)one_less(row[4]);
    return COUNTER_DONE;
}

uint64_t plain_check_in(bool pair, uint8_t *ledger, size_t ledger_len, uint8_t *titles, size_t titles_len,
                        const uint8_t *rules, size_t rules_len, uint64_t entry, uint64_t f1)
{
    uint8_t *row, *title;
    uint64_t wrong, content;

    if (!is_numbered(entry))
        return COUNTER_ENTRY_NUMBER;
    wrong = wrong_buffers(pair, ledger, ledger_len, titles, titles_len, rules, rules_len);
    if (wrong)
        return wrong;
    title = titles + TITLE_HALF * entry;
    if (kind_of(title, rules + RULE_HALF * entry) != COPY)
        return COUNTER_KIND_OF_ENTRY;
    content = usable_id(title);
    row = ledger + ROW * content;
    if (content > load16(ledger + 2) || !is_here(row))
        return COUNTER_STATE_OF_ROW;
    if (row[4] == COUNTER_UNLIMITED - 1)
        return COUNTER_PERMITS_FULL;
    if (filler_is_key(title, f1))
        return COUNTER_FILLER;
    wipe_title(title, f1);
    if (row[4] != COUNTER_UNLIMITED)
        row[4]++;
    return COUNTER_DONE;
}

uint64_t plain_move_out(bool pair, uint8_t *ledger, size_t ledger_len, uint8_t *titles, size_t titles_len, uint8_t *rules,
                        size_t rules_len, uint64_t entry, uint64_t hash, uint64_t f1, uint64_t f2, uint64_t f3,
                        uint64_t f4)
{
    uint8_t *row, *title, *rule;
    uint64_t wrong, content;
    struct facts facts;

    if (!is_numbered(entry))
        return COUNTER_ENTRY_NUMBER;
    wrong = wrong_buffers(pair, ledger, ledger_len, titles, titles_len, rules, rules_len);
    if (wrong)
        return wrong;
    title = titles + TITLE_HALF * entry;
    rule = rules + RULE_HALF * entry;
    if (kind_of(title, rule) != FULL)
        return COUNTER_KIND_OF_ENTRY;
    content = usable_id(title);
    row = ledger + ROW * content;
    if (content > load16(ledger + 2) || row[0] != AWAY)
        return COUNTER_STATE_OF_ROW;
    facts = facts_of_entry(title, rule);
    if (facts.trigger == 1 || facts.rights == 0)
        return COUNTER_NOTHING_LEFT;
    if (hash != load64(rule + 18))
        return COUNTER_HASH;
    if (filler_is_key(title, f1) || leaves_sti_key(pair, rule, f2))
        return COUNTER_FILLER;
    facts.rights = one_less(facts.rights);
    write_here(row, &facts);
    wipe_title(title, f1);
    wipe_rule(rule, f2, f3, f4);
    return COUNTER_DONE;
}

/* Refused before the search, it leaves *entries_read as it is. */
static inline uint64_t move_in(bool pair, uint8_t *ledger, size_t ledger_len, uint8_t *titles, size_t titles_len,
                               uint8_t *rules, size_t rules_len, uint64_t content, uint64_t entry, uint64_t hash,
                               uint64_t *entries_read)
{
    uint8_t *row, *title, *rule;
    uint64_t wrong, copy;
    struct facts facts;

    if (!is_numbered(content))
        return COUNTER_CONTENT_ID;
    if (!is_numbered(entry))
        return COUNTER_ENTRY_NUMBER;
    wrong = wrong_buffers(pair, ledger, ledger_len, titles, titles_len, rules, rules_len);
    if (wrong)
        return wrong;
    row = ledger + ROW * content;
    title = titles + TITLE_HALF * entry;
    rule = rules + RULE_HALF * entry;
    if (!is_vacant(title, rule))
        return COUNTER_KIND_OF_ENTRY;
    if (content > load16(ledger + 2) || !is_here(row))
        return COUNTER_STATE_OF_ROW;
    facts = facts_of_row(row);
    if (facts.trigger == 1 || facts.rights == 0)
        return COUNTER_NOTHING_LEFT;
    copy = first_copy(titles, rules, content);
    *entries_read = copy ? copy : COUNTER_LAST_ENTRY;
    if (copy)
        return COUNTER_COPY_OUT;
    facts.rights = one_less(facts.rights);
    write_title(title, content, facts.cci, facts.title_key);
    write_rule(rule, content, &facts, hash);
    write_state(row, AWAY);
    return COUNTER_DONE;
}

uint64_t plain_move_in(bool pair, uint8_t *ledger, size_t ledger_len, uint8_t *titles, size_t titles_len, uint8_t *rules,
                       size_t rules_len, uint64_t content, uint64_t entry, uint64_t hash, uint64_t *entries_read)
{
    /* What is read stays in a register until the end: stored before, it takes a nanosecond more. */
    uint64_t read = 0;
    uint64_t answer = move_in(pair, ledger, ledger_len, titles, titles_len, rules, rules_len, content, entry, hash, &read);

    *entries_read = read;
    return answer;
}

uint64_t plain_delete(bool pair, uint8_t *ledger, size_t ledger_len, uint8_t *titles, size_t titles_len, uint8_t *rules,
                      size_t rules_len, uint64_t entry, uint64_t f1, uint64_t f2, uint64_t f3, uint64_t f4)
{
    uint8_t *row, *title, *rule;
    uint64_t wrong, content;
    enum entry_kind kind;

    if (!is_numbered(entry))
        return COUNTER_ENTRY_NUMBER;
    wrong = wrong_buffers(pair, ledger, ledger_len, titles, titles_len, rules, rules_len);
    if (wrong)
        return wrong;
    title = titles + TITLE_HALF * entry;
    rule = rules + RULE_HALF * entry;
    kind = kind_of(title, rule);
    if (kind != COPY && kind != FULL)
        return COUNTER_KIND_OF_ENTRY;
    content = usable_id(title);
    row = ledger + ROW * content;
    if (kind == FULL && (content > load16(ledger + 2) || row[0] != AWAY))
        return COUNTER_STATE_OF_ROW;
    if (filler_is_key(title, f1) || (kind == FULL && leaves_sti_key(pair, rule, f2)))
        return COUNTER_FILLER;
    wipe_title(title, f1);
    if (kind == FULL) {
        wipe_rule(rule, f2, f3, f4);
        write_state(row, GONE);
    }
    return COUNTER_DONE;
}

/* ---------------------------------------------------------------- inspection */

static const struct facts no_facts;

/* Fact by fact, so that all of them come from registers: by memcpy they go over the stack, and a call takes 12 ns more. */
static inline void tell(uint64_t places[COUNTER_FACT_COUNT], struct facts facts)
{
    places[COUNTER_FACT_CCI] = facts.cci;
    places[COUNTER_FACT_TRIGGER] = facts.trigger;
    places[COUNTER_FACT_RIGHTS] = facts.rights;
    places[COUNTER_FACT_PERMITS] = facts.permits;
    places[COUNTER_FACT_TITLE_KEY] = facts.title_key;
    places[COUNTER_FACT_STI_KEY] = facts.sti_key;
}

uint64_t plain_inspect_entry(bool pair, const uint8_t *titles, size_t titles_len, const uint8_t *rules, size_t rules_len,
                             uint64_t entry, uint64_t *kind, uint64_t *content, uint64_t facts[COUNTER_FACT_COUNT])
{
    const uint8_t *title, *rule;
    enum entry_kind found;
    uint64_t wrong;

    if (!is_numbered(entry))
        return COUNTER_ENTRY_NUMBER;
    wrong = wrong_card(pair, titles, titles_len, rules, rules_len);
    if (wrong)
        return wrong;
    title = titles + TITLE_HALF * entry;
    rule = rules + RULE_HALF * entry;
    found = kind_of(title, rule);
    *kind = found;
    *content = found == FREE || found == TORN ? 0 : id_of(title);
    if (found == FULL)
        tell(facts, facts_of_entry(title, rule));
    else if (found == COPY)
        tell(facts, (struct facts){.cci = cci_of(title), .title_key = key_of(title)});
    else
        tell(facts, no_facts);
    return COUNTER_DONE;
}

uint64_t plain_inspect_row(const uint8_t *ledger, size_t ledger_len, uint64_t content, uint64_t *state,
                           uint64_t facts[COUNTER_FACT_COUNT])
{
    uint64_t rows;
    const uint8_t *row;

    if (!is_numbered(content))
        return COUNTER_CONTENT_ID;
    rows = rows_of(ledger, ledger_len);
    if (rows == 0)
        return COUNTER_LEDGER;
    if (content > rows)
        return COUNTER_STATE_OF_ROW;
    row = ledger + ROW * content;
    if (is_here(row)) {
        *state = HERE;
        tell(facts, facts_of_row(row));
    } else {
        *state = row[0] == HERE || row[0] > GONE ? NO_STATE : row[0];
        tell(facts, no_facts);
    }
    return COUNTER_DONE;
}

static inline int is_one_of_three(const uint8_t *first, struct sought sought)
{
    const uint8_t *second = first + TITLE_HALF, *third = second + TITLE_HALF;

    return has_flag_and_id(first, sought) || has_flag_and_id(second, sought) || has_flag_and_id(third, sought);
}

/* A copy is mostly told by its rule half's flag alone. */
static inline void count_three(const uint8_t *titles, const uint8_t *rules, uint64_t content, struct sought sought,
                               uint64_t *full, uint64_t *copies)
{
    for (size_t at = 0; at < 3 * TITLE_HALF; at += TITLE_HALF) {
        const uint8_t *title = titles + at, *rule = rules + 2 * at;

        if (!has_flag_and_id(title, sought) || cci_of(title) == 1)
            continue;
        if (rule[8] < 0x80 || id_of(rule) == 0)
            (*copies)++;
        else if (id_of(rule) == content)
            (*full)++;
    }
}

/*
 * The full entries and the copies of a title. Most entries of most cards are of others, and three of these are passed over at
 * once, which takes a fifth less than one by one.
 */
static inline void count_title(const uint8_t *titles, const uint8_t *rules, uint64_t content, uint64_t *full, uint64_t *copies)
{
    struct sought sought = seek(content);
    uint64_t held = 0, lent = 0;

    for (size_t at = TITLE_HALF; at < COUNTER_TITLES_SIZE; at += 3 * TITLE_HALF)
        if (is_one_of_three(titles + at, sought))
            count_three(titles + at, rules + 2 * at, content, sought, &held, &lent);
    *full = held;
    *copies = lent;
}

uint64_t plain_inspect_title(bool pair, const uint8_t *ledger, size_t ledger_len, const uint8_t *titles, size_t titles_len,
                             const uint8_t *rules, size_t rules_len, uint64_t content, uint64_t *holders, uint64_t *copies)
{
    uint64_t wrong;

    if (!is_numbered(content))
        return COUNTER_CONTENT_ID;
    wrong = wrong_buffers(pair, ledger, ledger_len, titles, titles_len, rules, rules_len);
    if (wrong)
        return wrong;
    if (content > load16(ledger + 2))
        return COUNTER_STATE_OF_ROW;
    count_title(titles, rules, content, holders, copies);
    *holders += (uint64_t)is_here(ledger + ROW * content);
    return COUNTER_DONE;
}

/* Three title halves, one behind another, as on a full card all are. One test of three flags tells most of it. */
static inline int are_three_usable(const uint8_t *first)
{
    const uint8_t *second = first + TITLE_HALF, *third = second + TITLE_HALF;

    return (first[8] & second[8] & third[8]) >= 0x80 && id_of(first) != 0 && id_of(second) != 0 && id_of(third) != 0;
}

uint64_t plain_first_vacant(bool pair, const uint8_t *titles, size_t titles_len, const uint8_t *rules, size_t rules_len,
                            uint64_t from, uint64_t *entry)
{
    uint64_t wrong;
    size_t at;

    if (!is_numbered(from))
        return COUNTER_ENTRY_NUMBER;
    wrong = wrong_card(pair, titles, titles_len, rules, rules_len);
    if (wrong)
        return wrong;
    at = TITLE_HALF * from;
    while (at + 2 * TITLE_HALF < COUNTER_TITLES_SIZE && are_three_usable(titles + at))
        at += 3 * TITLE_HALF;
    while (at < COUNTER_TITLES_SIZE && !is_vacant(titles + at, rules + 2 * at))
        at += TITLE_HALF;
    *entry = at < COUNTER_TITLES_SIZE ? at / TITLE_HALF : 0;
    return COUNTER_DONE;
}

/* ---------------------------------------------------------------- the closing sheet */

/* What the card has of each content ID: how many copies, and the rule half of the first full entry. And how many spent entries. */
struct card {
    unsigned spent;
    uint16_t copies[COUNTER_MOST_ROWS + 1];
    const uint8_t *rule[COUNTER_MOST_ROWS + 1];
};

/* One pass over the entries serves all rows. Most entries of most cards have no ID, with which they are nothing that counts here. */
static inline void survey(struct card *card, const uint8_t *titles, const uint8_t *rules)
{
    memset(card, 0, sizeof *card);
    for (size_t entry = 1; entry <= COUNTER_LAST_ENTRY; entry++) {
        const uint8_t *title = titles + TITLE_HALF * entry, *rule = rules + RULE_HALF * entry;
        enum entry_kind kind;

        if ((load16(title + 14) & ID_BITS) == 0)
            continue;
        kind = kind_of(title, rule);
        if (kind == COPY)
            card->copies[usable_id(title)]++;
        else if (kind == FULL && card->rule[usable_id(title)] == NULL)
            card->rule[usable_id(title)] = rule;
        else if (kind == SPENT)
            card->spent++;
    }
}

static inline uint8_t *write_decimal(uint8_t *next, unsigned number, char end)
{
    uint8_t digits[10];
    size_t count = 0;

    do {
        digits[count++] = (uint8_t)('0' + number % 10);
        number /= 10;
    } while (number > 0);
    while (count > 0)
        *next++ = digits[--count];
    *next++ = (uint8_t)end;
    return next;
}

/* Writes the lines, the totals and the number of spent entries, and answers the place after them. */
static inline uint8_t *write_sheet(uint8_t *next, const uint8_t *ledger, const struct card *card)
{
    unsigned rows = (unsigned)load16(ledger + 2), all_permits = 0, all_copies = 0;

    for (unsigned content = 1; content <= rows; content++) {
        const uint8_t *row = ledger + ROW * content, *rule = card->rule[content];
        unsigned permits = 0, rights = 0;

        if (row[0] == EMPTY)
            continue;
        if (is_here(row)) {
            permits = row[4];
            rights = row[3];
        } else if (row[0] == AWAY && rule != NULL) {
            permits = rule[17] & 15;
            rights = rule[17] >> 4;
        }
        next = write_decimal(next, content, ' ');
        next = write_decimal(next, row[0], ' ');
        next = write_decimal(next, permits, ' ');
        next = write_decimal(next, rights, ' ');
        next = write_decimal(next, card->copies[content], '\n');
        all_permits += permits == COUNTER_UNLIMITED ? 0 : permits;
        all_copies += card->copies[content];
    }
    memcpy(next, "total ", 6);
    next = write_decimal(next + 6, all_permits, ' ');
    next = write_decimal(next, all_copies, '\n');
    memcpy(next, "spent ", 6);
    return write_decimal(next + 6, card->spent, '\n');
}

/* A text with room for any sheet is written at once; another one only when it is known that the sheet fits. */
uint64_t plain_sheet(bool pair, const uint8_t *ledger, size_t ledger_len, const uint8_t *titles, size_t titles_len,
                     const uint8_t *rules, size_t rules_len, uint8_t *text, size_t text_len, size_t *used)
{
    uint8_t own[COUNTER_SHEET_SIZE], *sheet = text_len < COUNTER_SHEET_SIZE ? own : text;
    uint64_t wrong = wrong_buffers(pair, ledger, ledger_len, titles, titles_len, rules, rules_len);
    struct card card;
    size_t length;

    if (wrong)
        return wrong;
    survey(&card, titles, rules);
    length = (size_t)(write_sheet(sheet, ledger, &card) - sheet);
    if (text_len < length)
        return COUNTER_TOO_SHORT;
    if (sheet == own)
        memcpy(text, own, length);
    *used = length;
    return COUNTER_DONE;
}

/* ---------------------------------------------------------------- requests */

enum argument { CONTENT, ENTRY, CCI, TRIGGER, COUNT, KEY, WORD };

/* The arguments of each kind of request, in order. */
static const struct {
    uint8_t count;
    uint8_t arguments[COUNTER_ARGUMENTS];
} requests[8] = {
    {0, {0}},
    {7, {CONTENT, CCI, TRIGGER, COUNT, COUNT, KEY, KEY}},
    {9, {CONTENT, ENTRY, CCI, TRIGGER, COUNT, COUNT, KEY, KEY, WORD}},
    {2, {CONTENT, ENTRY}},
    {2, {ENTRY, WORD}},
    {6, {ENTRY, WORD, WORD, WORD, WORD, WORD}},
    {3, {CONTENT, ENTRY, WORD}},
    {5, {ENTRY, WORD, WORD, WORD, WORD}},
};

/* The range of each argument, its lowest value and how far above it the highest lies, and the refusal of a value outside. A CCI is
 * in its range or 0. */
static const struct {
    uint64_t lowest, span, refusal;
} limits[] = {
    [CONTENT] = {1, COUNTER_MOST_ROWS - 1, COUNTER_CONTENT_ID},
    [ENTRY] = {1, COUNTER_LAST_ENTRY - 1, COUNTER_ENTRY_NUMBER},
    [CCI] = {2, 1, COUNTER_FACTS},
    [TRIGGER] = {0, 1, COUNTER_FACTS},
    [COUNT] = {0, COUNTER_UNLIMITED, COUNTER_FACTS},
    [KEY] = {0, KEY_BITS, COUNTER_FACTS},
    [WORD] = {0, UINT64_MAX, COUNTER_DONE},
};

static inline int is_kind(uint64_t kind)
{
    return kind - 1 < 7;
}

static inline uint64_t refuse_argument(enum argument argument, uint64_t value)
{
    if (value - limits[argument].lowest <= limits[argument].span || (argument == CCI && value == 0))
        return COUNTER_DONE;
    return limits[argument].refusal;
}

/* Reads the number at *next and steps past it. */
static inline uint64_t read_number(const uint8_t **next, const uint8_t *end, uint64_t *number)
{
    const uint8_t *at = *next;
    uint64_t value = 0, byte;

    for (unsigned shift = 0; shift < 64; shift += 7) {
        if (at == end)
            return COUNTER_TOO_SHORT;
        byte = *at++;
        if (shift == 63 && byte != 1)
            return COUNTER_NUMBER;
        value |= (byte & 0x7f) << shift;
        if (byte < 0x80) {
            if (byte == 0 && shift > 0)
                return COUNTER_NUMBER;
            break;
        }
    }
    *next = at;
    *number = value;
    return COUNTER_DONE;
}

uint64_t plain_read_request(const uint8_t *bytes, size_t bytes_len, uint64_t *kind, uint64_t arguments[COUNTER_ARGUMENTS],
                            size_t *used)
{
    const uint8_t *next = bytes, *end = bytes + bytes_len;
    uint64_t values[COUNTER_ARGUMENTS] = {0};
    uint64_t read_kind, refusal;

    refusal = read_number(&next, end, &read_kind);
    if (refusal)
        return refusal;
    if (!is_kind(read_kind))
        return COUNTER_KIND;
    for (size_t i = 0; i < requests[read_kind].count; i++) {
        refusal = read_number(&next, end, &values[i]);
        if (refusal)
            return refusal;
        refusal = refuse_argument(requests[read_kind].arguments[i], values[i]);
        if (refusal)
            return refusal;
    }
    *kind = read_kind;
    memcpy(arguments, values, sizeof values);
    *used = (size_t)(next - bytes);
    return COUNTER_DONE;
}

/* How many groups of seven bits a number has: 9/64 is close enough to 1/7 up to 64 bits. A table by leading zeros was no faster. */
static inline size_t length_of(uint64_t number)
{
    size_t bits = 64 - (size_t)__builtin_clzll(number | 1);

    return (9 * bits + 64) / 64;
}

static inline uint8_t *write_number(uint8_t *next, uint64_t number)
{
    while (number >= 0x80) {
        *next++ = (uint8_t)(number | 0x80);
        number >>= 7;
    }
    *next++ = (uint8_t)number;
    return next;
}

static size_t length_of_request(uint64_t kind, const uint64_t arguments[COUNTER_ARGUMENTS])
{
    size_t length = 1;

    for (size_t i = 0; i < requests[kind].count; i++)
        length += length_of(arguments[i]);
    return length;
}

uint64_t plain_write_request(uint8_t *bytes, size_t bytes_len, uint64_t kind, const uint64_t arguments[COUNTER_ARGUMENTS],
                             size_t *used)
{
    uint8_t *next = bytes;
    uint64_t refusal;

    if (!is_kind(kind))
        return COUNTER_KIND;
    for (size_t i = 0; i < requests[kind].count; i++) {
        refusal = refuse_argument(requests[kind].arguments[i], arguments[i]);
        if (refusal)
            return refusal;
    }
    if (bytes_len < COUNTER_LONGEST_REQUEST && bytes_len < length_of_request(kind, arguments))
        return COUNTER_TOO_SHORT;
    *next++ = (uint8_t)kind;
    for (size_t i = 0; i < requests[kind].count; i++)
        next = write_number(next, arguments[i]);
    *used = (size_t)(next - bytes);
    return COUNTER_DONE;
}

/* ---------------------------------------------------------------- requests carried out, and previewed */

uint64_t plain_perform(bool pair, uint8_t *ledger, size_t ledger_len, uint8_t *titles, size_t titles_len, uint8_t *rules,
                       size_t rules_len, const struct counter_request *request)
{
    const uint64_t *a = request->arguments;
    uint64_t entries_read;

    switch (request->kind) {
    case COUNTER_REGISTER:
        return plain_register(ledger, ledger_len, a[0], a[1], a[2], a[3], a[4], a[5], a[6]);
    case COUNTER_RECORD:
        return plain_record(pair, ledger, ledger_len, titles, titles_len, rules, rules_len, a[0], a[1], a[2], a[3], a[4],
                            a[5], a[6], a[7], a[8]);
    case COUNTER_CHECK_OUT:
        return plain_check_out(pair, ledger, ledger_len, titles, titles_len, rules, rules_len, a[0], a[1]);
    case COUNTER_CHECK_IN:
        return plain_check_in(pair, ledger, ledger_len, titles, titles_len, rules, rules_len, a[0], a[1]);
    case COUNTER_MOVE_OUT:
        return plain_move_out(pair, ledger, ledger_len, titles, titles_len, rules, rules_len, a[0], a[1], a[2], a[3], a[4],
                              a[5]);
    case COUNTER_MOVE_IN:
        return plain_move_in(pair, ledger, ledger_len, titles, titles_len, rules, rules_len, a[0], a[1], a[2],
                             &entries_read);
    case COUNTER_DELETE:
        return plain_delete(pair, ledger, ledger_len, titles, titles_len, rules, rules_len, a[0], a[1], a[2], a[3], a[4]);
    default:
        return COUNTER_KIND;
    }
}

uint64_t plain_preview(bool pair, const uint8_t *ledger, size_t ledger_len, const uint8_t *titles, size_t titles_len,
                       const uint8_t *rules, size_t rules_len, uint8_t *scratch_ledger, size_t scratch_ledger_len,
                       uint8_t *scratch_titles, size_t scratch_titles_len, uint8_t *scratch_rules, size_t scratch_rules_len,
                       const struct counter_request basket[COUNTER_BASKET_SIZE], uint64_t count,
                       uint64_t answers[COUNTER_BASKET_SIZE])
{
    if (count > COUNTER_BASKET_SIZE)
        return COUNTER_BASKET;
    if (scratch_ledger_len != ledger_len || scratch_titles_len != titles_len || scratch_rules_len != rules_len)
        return COUNTER_SCRATCH;
    memcpy(scratch_ledger, ledger, ledger_len);
    memcpy(scratch_titles, titles, titles_len);
    memcpy(scratch_rules, rules, rules_len);
    memset(answers, 0, COUNTER_BASKET_SIZE * sizeof *answers);
    for (size_t i = 0; i < count; i++)
        answers[i] = plain_perform(pair, scratch_ledger, ledger_len, scratch_titles, titles_len, scratch_rules, rules_len,
                                   &basket[i]);
    return COUNTER_DONE;
}

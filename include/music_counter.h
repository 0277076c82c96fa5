/*
 * The music counter: paid music titles, and pictures (cover sheets), on a shop's ledger and on SD-Audio cards.
 *
 * A title lives in one place, its holder: a row of the shop's ledger or a full entry of the card. Its permits say how many
 * more loan copies may go out, its move rights how often it may still move; 15 means unlimited in both. Seven calls change a
 * title, two write a fresh ledger and a fresh card, one counts copies, four tell what stands on a card and in a ledger, and one
 * writes a sheet of it all to print. Two more read and write the calls as request bytes, one carries out a call that is given as
 * a kind and arguments, and one previews what a basket of these would be answered.
 *
 * Link with libtill.a, which is for Linux on x86-64, needs no flags and uses no heap: cc till.c libtill.a
 *
 * THE BUFFERS
 *
 * The caller owns three buffers, for music and for pictures three each, and passes each as a pointer and a length in bytes:
 *
 *   ledger   the shop's rows, COUNTER_LEDGER_SIZE(R) bytes for R rows, R from 1 to 999
 *   titles   the card's title table, opened (deciphered), COUNTER_TITLES_SIZE bytes
 *   rules    the card's rule table, opened, COUNTER_RULES_SIZE bytes
 *
 * A till names each pointer with its length once, by a macro, as examples/till.c does.
 *
 * Row c of the ledger (1 to R) is title c, and c is the content ID on the card. A title has one holder, so what is sold twice
 * is two titles, in two rows, with two content IDs. A row is never used again for another title, so a ledger of R rows is for
 * R titles, and it cannot be made longer: take 999 rows unless there is a reason. Entry j (1 to 999) is a place on the card,
 * with a title half in one table and a rule half in the other. A content ID and an entry number have nothing to do with each
 * other. The ciphers, and the hash C_HASH of an entry, are the card's secure module's: the counter stores the hash and
 * compares it, and computes neither. docs/RULES.md has the layouts of rows and halves; bytes 16 to 31 of a rule half come from
 * the module in the order that stands there, and not in that of the SD-Audio Part.
 *
 * The heads of ledger and rule table carry an application number, 0 to 65535. Where they differ, each call but register answers
 * 9, and so do the inspection of a title and the sheet; two ledgers of one number are not told apart. A right title table has version 09h or 10h, a right rule table 11h or
 * any above, in every call. No call but formatting changes the head of a ledger or a card.
 *
 * A row is empty; here, where the ledger holds the title; away, where the card holds it; or gone, where the title was deleted.
 * A damaged row is in no state. A half of an entry is usable where its availability flag is 1 and its content ID is not 0, and
 * by its halves an entry is of one of five kinds:
 *
 *   free    neither half is usable, and the entry is not spent
 *   copy    the title half alone is usable: lent from a row, or a title whose rule half was lost
 *   full    both halves are usable, with the same content ID: the holder of its title
 *   spent   neither half is usable, and the title half has flag 0 and a content ID from 1 to 999: that of the title that was
 *           there, where these calls wiped it; on a card that other hands wrote, whatever ID stands there
 *   torn    anything else: the rule half alone is usable, or both are, with different content IDs; also, whatever else holds,
 *           where a usable half has a content ID above 999 or a usable title half has the reserved CCI 1
 *
 * A copy that is checked in or deleted leaves its entry spent, and so does a title that is moved out or deleted, until the
 * next title is put there. Where a call needs a free entry, a spent one does as well. No call takes a torn entry: it stays
 * torn until the card is formatted or the entry is written by someone else. A fresh card has free entries only.
 *
 * PAIRS
 *
 * A card's title table and rule table make a pair: COUNTER_AUDIO for music titles, with the identifiers "A1" and "M1" in their
 * heads, or COUNTER_PICTURE for picture titles, with "P1" in both. All else is laid out alike, and the same functions serve
 * both: each that is lent a card takes the pair as its first parameter, a bool, of which no value is wrong. A table of the
 * other pair has a wrong head: 8 for the title table, 9 for the rule table, in the order of tests. Formatting a card looks at
 * no head, and writes one of the pair that it is given; whatever stood there is lost, titles too. One SD card may have both
 * pairs of tables, in four buffers: to the functions each pair is a card of its own, and formatting one does not touch the
 * other.
 *
 * A picture has no track information. Its STI key is a random number below 2^56 that the secure module gives; the counter
 * stores it like any STI key, and there is nothing to compute. A picture call answers 16 for f1 only: an f2 that is the
 * stored number is written over it like any other.
 *
 * A picture pair has a ledger of its own. A ledger has no mark of the pair that it is for, so no call can refuse the wrong
 * one: keep the two apart. Requests have no mark of it either.
 *
 * WHAT A CALLER MUST KEEP
 *
 * - Each pointer points to as many bytes as its length says, readable and (where it is not const) writable. No pointer is
 *   null, also where its length is 0, and each place for a number is aligned as its type asks.
 * - The buffers of one call, a preview's scratch buffers among them, do not overlap, nor do the places for the numbers that it
 *   writes, with them or with each other. A request or a basket that a call reads overlaps nothing that it writes.
 * - Arrays have as many places as this header says: arguments nine, facts six, a basket and its answers sixteen, whatever count
 *   is.
 * - Nobody else writes to the buffers while a call runs, and nobody reads them while a call runs that may write them. Calls
 *   on different buffers may run at the same time: the library keeps nothing between calls.
 * - Music and pictures have a ledger each, and every call that is lent a card names the pair that its ledger is for.
 *
 * Nothing else has to be tested before a call. Wrong lengths, wrong heads (7 to 9) and arguments out of range, up to 2^64 - 1,
 * are refused; a damaged row or entry is refused by the calls that need it sound (10, 11), and stops no other call. Only an
 * application number above 65535 is not seen, since C cuts it to 16 bits.
 *
 * ONE LEDGER AND ITS CARD
 *
 * What is promised of permits, rights, holders and copies over a history is promised of one ledger and one card of one pair:
 * both formatted once and used together, with nothing written between the calls by anybody else, and no older image of one of
 * them put back.
 *
 * With several cards on one ledger each call sees the one that it is lent: 14, tally, holders, copies and sheet are about that
 * card alone. A copy that was left on another card is answered 11 at its check-in while its title is away, and for good once
 * the title's holder was deleted. So take the copies of a title back before it is moved in.
 *
 * SAVING
 *
 * The buffers are plain bytes: save and load them as they are. A call changes up to three of them. Where only some of these
 * are saved, a title may be lost or stand twice, or a permit be too many or too few, and no later call is sure to notice. So
 * keep the old three until the new three are saved. A log of requests (counter_write_request) lets the last one be carried out
 * again on the old three, which gives the same bytes.
 *
 * THE ANSWER
 *
 * Every function answers a number: COUNTER_DONE (0), or the number of a refusal. A refusal changes no byte of any buffer.
 * Places that a function writes numbers to keep their values on a refusal, but for *entries_read of counter_move_in, which
 * is always written. The first test that fails gives the answer, and each function's comment has its numbers in the order
 * tested. The seven calls, formatting, tally, inspection and preview test in the order of the numbers. The sheet tests 1 last,
 * after 7, 8 and 9. Performing a request tests its kind, 3, and then what its call tests.
 * Reading a request tests each number of the request for 1, for 2 and for its own limit (3 to 6) before it reads the next.
 * Writing one tests its kind and arguments in their order (3 to 6), and 1 last. counter_text names a number in words.
 *
 * FACTS AND FILLERS
 *
 * A title's facts are its copy control information cci (0 free, 2 one generation, 3 no more), its trigger (0, or 1 for a title
 * that does not move), its move rights and permits (0 to 15), its title key and its track information (STI) key (below 2^56).
 * hash and f1 to f4 are any 64-bit numbers. Fillers f1 to f4 are what a wipe writes over keys; fresh random numbers do, and a
 * call that is answered 16 is made again with others. f1 goes over the first 8 bytes of a title half, f2 over the first 8
 * bytes of a rule half, f3 and then f4 over its last 16, each with its most significant byte first. A wipe also clears the
 * half's availability flag and changes nothing else.
 */
#ifndef MUSIC_COUNTER_H
#define MUSIC_COUNTER_H

#include <stdbool.h>
#include <stddef.h>
#include <stdint.h>

#ifdef __cplusplus
extern "C" {
#endif

/*
 * The interface that this header declares: 1 more with each release that changes a declaration. The linker does not compare
 * parameters, so compile a till anew with the header of its library.
 */
#define COUNTER_INTERFACE 6

/* The two pairs of tables, for `bool pair`. */
#define COUNTER_AUDIO false
#define COUNTER_PICTURE true

/* Sizes in bytes. */
#define COUNTER_TITLES_SIZE 16000
#define COUNTER_RULES_SIZE 32000
#define COUNTER_LEDGER_SIZE(rows) (24 * ((size_t)(rows) + 1))

/* The most rows of a ledger, and the last entry of a card. */
#define COUNTER_MOST_ROWS 999
#define COUNTER_LAST_ENTRY 999

/* Permits or rights that are not counted down. */
#define COUNTER_UNLIMITED 15

/*
 * The answers. 1 to 3 are about requests and bytes; only the functions on requests have them, and the sheet 1. 17 and 18 are
 * those of a preview alone. The kinds of an entry (COUNTER_ENTRY_..), the states of a row (COUNTER_ROW_..) and the kinds of
 * request are further down; COUNTER_ENTRY_NUMBER is an answer.
 */
enum {
    COUNTER_DONE = 0,           /* done */
    COUNTER_TOO_SHORT = 1,      /* request bytes end too early, or too little room for them */
    COUNTER_NUMBER = 2,         /* a number that is not in its shortest form or too large */
    COUNTER_KIND = 3,           /* no such kind of request */
    COUNTER_CONTENT_ID = 4,     /* content ID (in formatting: rows) not 1 to 999 */
    COUNTER_ENTRY_NUMBER = 5,   /* entry number not 1 to 999 */
    COUNTER_FACTS = 6,          /* a fact out of range */
    COUNTER_LEDGER = 7,         /* ledger length or head wrong */
    COUNTER_TITLES = 8,         /* title table length or head wrong */
    COUNTER_RULES = 9,          /* rule table length, head or application number wrong */
    COUNTER_KIND_OF_ENTRY = 10, /* entry not of the kind needed */
    COUNTER_STATE_OF_ROW = 11,  /* row above R or not in the state needed */
    COUNTER_NOTHING_LEFT = 12,  /* no permit left, no move right left, or the trigger is set */
    COUNTER_HASH = 13,          /* hash differs from the stored one */
    COUNTER_COPY_OUT = 14,      /* a copy of the title is on the card */
    COUNTER_PERMITS_FULL = 15,  /* permits are 14 already */
    COUNTER_FILLER = 16,        /* a filler would leave a key in place */
    COUNTER_BASKET = 17,        /* more than 16 requests in a basket */
    COUNTER_SCRATCH = 18        /* a scratch buffer whose length is not its original's */
};

/* An answer in words. */
static inline const char *counter_text(uint64_t number)
{
    switch (number) {
    case COUNTER_DONE: return "done";
    case COUNTER_TOO_SHORT: return "request bytes end too early, or too little room for them";
    case COUNTER_NUMBER: return "a number that is not in its shortest form or too large";
    case COUNTER_KIND: return "no such kind of request";
    case COUNTER_CONTENT_ID: return "content ID (in formatting: rows) not 1 to 999";
    case COUNTER_ENTRY_NUMBER: return "entry number not 1 to 999";
    case COUNTER_FACTS: return "a fact out of range";
    case COUNTER_LEDGER: return "ledger length or head wrong";
    case COUNTER_TITLES: return "title table length or head wrong";
    case COUNTER_RULES: return "rule table length, head or application number wrong";
    case COUNTER_KIND_OF_ENTRY: return "entry not of the kind needed";
    case COUNTER_STATE_OF_ROW: return "row above R or not in the state needed";
    case COUNTER_NOTHING_LEFT: return "no permit left, no move right left, or the trigger is set";
    case COUNTER_HASH: return "hash differs from the stored one";
    case COUNTER_COPY_OUT: return "a copy of the title is on the card";
    case COUNTER_PERMITS_FULL: return "permits are 14 already";
    case COUNTER_FILLER: return "a filler would leave a key in place";
    case COUNTER_BASKET: return "more than 16 requests in a basket";
    case COUNTER_SCRATCH: return "a scratch buffer whose length is not its original's";
    default: return "no answer of the counter";
    }
}

/*
 * Writes a fresh ledger of `rows` rows for an application number. Looks at no byte of the buffer: whatever stood there is
 * lost, titles too.
 *
 * Answers 4 where rows is not 1 to 999; 7 where ledger_len is not COUNTER_LEDGER_SIZE(rows).
 * Done: all bytes are written: the head, and every row empty.
 */
uint64_t counter_format_ledger(uint8_t *ledger, size_t ledger_len, uint64_t rows, uint16_t application);

/*
 * Writes the two tables of a fresh card, audio or picture, for an application number. Looks at no byte of the buffers: whatever
 * stood there is lost, and no row of a ledger learns of it.
 *
 * Answers 8 where titles_len is not COUNTER_TITLES_SIZE; 9 where rules_len is not COUNTER_RULES_SIZE.
 * Done: all bytes of both tables are written: the heads, and every entry free.
 */
uint64_t counter_format_card(bool pair, uint8_t *titles, size_t titles_len, uint8_t *rules, size_t rules_len,
                             uint16_t application);

/*
 * Registers title `content` with its facts in the ledger.
 *
 * Answers 4, 6, 7; 11 where the row is above R or not empty.
 * Done: the row is here with these facts.
 */
uint64_t counter_register(uint8_t *ledger, size_t ledger_len, uint64_t content, uint64_t cci, uint64_t trigger,
                          uint64_t rights, uint64_t permits, uint64_t title_key, uint64_t sti_key);

/*
 * Records title `content` with its facts on the card, at once and without a stay in the ledger.
 *
 * Answers 4, 5, 6, 7, 8, 9; 10 where the entry is neither free nor spent; 11 where the row is above R or not empty.
 * Done: the row is away, and the entry is full with the facts and the hash.
 */
uint64_t counter_record(bool pair, uint8_t *ledger, size_t ledger_len, uint8_t *titles, size_t titles_len, uint8_t *rules,
                        size_t rules_len, uint64_t content, uint64_t entry, uint64_t cci, uint64_t trigger, uint64_t rights,
                        uint64_t permits, uint64_t title_key, uint64_t sti_key, uint64_t hash);

/*
 * Lends a copy of title `content` to an entry of the card.
 *
 * Answers 4, 5, 7, 8, 9; 10 where the entry is neither free nor spent; 11 where the row is above R or not here; 12 where
 * its permits are 0.
 * Done: the entry is a copy, with the row's title key, and with CCI 3 where the row has 2, else the row's; the row's permits
 * are one less, or 15 as before. Of the row no other byte changes, so it keeps its CCI, and the rule table is only read.
 */
uint64_t counter_check_out(bool pair, uint8_t *ledger, size_t ledger_len, uint8_t *titles, size_t titles_len,
                           const uint8_t *rules, size_t rules_len, uint64_t content, uint64_t entry);

/*
 * Takes a copy back from an entry of the card. The title is the one whose content ID the entry has.
 *
 * Answers 5, 7, 8, 9; 10 where the entry is not a copy; 11 where its row is above R or not here; 15 where that row's
 * permits are 14; 16 where f1 modulo 2^56 is the copy's title key.
 * Done: the title half is wiped with f1, and the entry is spent; the row's permits are one more, or 15 as before. Of the
 * row no other byte changes, and the rule table is only read.
 */
uint64_t counter_check_in(bool pair, uint8_t *ledger, size_t ledger_len, uint8_t *titles, size_t titles_len,
                          const uint8_t *rules, size_t rules_len, uint64_t entry, uint64_t f1);

/*
 * Moves the title of a full entry out of the card, into its row of the ledger.
 *
 * Answers 5, 7, 8, 9; 10 where the entry is not full; 11 where its row is above R or not away; 12 where the entry's trigger
 * is 1 or its rights are 0; 13 where hash is not the entry's C_HASH; 16 where f1 modulo 2^56 is the entry's title key or,
 * in an audio call, f2 modulo 2^56 its STI key.
 * Done: the row is here with the entry's facts, rights one less, or 15 as before; both halves are wiped, and the entry is
 * spent.
 */
uint64_t counter_move_out(bool pair, uint8_t *ledger, size_t ledger_len, uint8_t *titles, size_t titles_len, uint8_t *rules,
                          size_t rules_len, uint64_t entry, uint64_t hash, uint64_t f1, uint64_t f2, uint64_t f3,
                          uint64_t f4);

/*
 * Moves title `content` from its row of the ledger into an entry of the card.
 *
 * Answers 4, 5, 7, 8, 9; 10 where the entry is neither free nor spent; 11 where the row is above R or not here; 12 where
 * its trigger is 1 or its rights are 0; 14 where a copy of the title is on the card.
 * Done: the entry is full with the row's facts, rights one less, or 15 as before, and the hash; the row is away.
 *
 * Whatever it answers, *entries_read is how many entries the test for 14 read, from entry 1 on: 0 where an earlier test
 * refused; with 14 the number of the first entry that is a copy of the title; where the move in is done, all 999. What stood
 * there before counts for nothing. The place must be given like every other; a till that does not need it forgets it.
 */
uint64_t counter_move_in(bool pair, uint8_t *ledger, size_t ledger_len, uint8_t *titles, size_t titles_len, uint8_t *rules,
                         size_t rules_len, uint64_t content, uint64_t entry, uint64_t hash, uint64_t *entries_read);

/*
 * Deletes what an entry of the card has: a copy, or a full title.
 *
 * Answers 5, 7, 8, 9; 10 where the entry is neither a copy nor full; 11 where it is full and its row is above R or not away;
 * 16 where f1 modulo 2^56 is the entry's title key or, in a full entry and an audio call, f2 modulo 2^56 its STI key.
 * Done, a copy: the title half is wiped with f1, and the entry is spent. The row is neither tested nor changed, nor is the
 * rule table; f2 to f4 are not used.
 * Done, a full entry: both halves are wiped, the entry is spent, and the row is gone: it is not used again.
 */
uint64_t counter_delete(bool pair, uint8_t *ledger, size_t ledger_len, uint8_t *titles, size_t titles_len, uint8_t *rules,
                        size_t rules_len, uint64_t entry, uint64_t f1, uint64_t f2, uint64_t f3, uint64_t f4);

/*
 * Counts the copies of title `content` on the card.
 *
 * Answers 4, 8, 9. There is no ledger here, so 9 does not ask whose application the card is of.
 * Done: *copies is their number, 0 to 999. On a refusal *copies keeps its value. The tables are only read.
 */
uint64_t counter_tally(bool pair, const uint8_t *titles, size_t titles_len, const uint8_t *rules, size_t rules_len,
                       uint64_t content, uint64_t *copies);

/*
 * INSPECTION
 *
 * What stands on a card and in a ledger, told without changing a byte of it: all buffers are only read. Where the heads are
 * right, damaged entries and rows are told too. To see all of a card, inspect its entries 1 to 999; all of a ledger, its rows
 * from 1 on until one is refused. To find the entry in which a title is, inspect entries until kind and content are right
 * (examples/till.c does it).
 */

/* The kinds of an entry, as counter_inspect_entry tells them. */
enum {
    COUNTER_ENTRY_FREE = 0,
    COUNTER_ENTRY_COPY = 1,
    COUNTER_ENTRY_FULL = 2,
    COUNTER_ENTRY_TORN = 3,
    COUNTER_ENTRY_SPENT = 4
};

/* The states of a row, as counter_inspect_row tells them. */
enum {
    COUNTER_ROW_EMPTY = 0,
    COUNTER_ROW_HERE = 1,
    COUNTER_ROW_AWAY = 2,
    COUNTER_ROW_GONE = 3,
    COUNTER_ROW_NO_STATE = 4    /* damaged */
};

/* The places of the facts that both tell, in the order in which counter_register takes them. */
#define COUNTER_FACT_COUNT 6

enum {
    COUNTER_FACT_CCI = 0,
    COUNTER_FACT_TRIGGER = 1,
    COUNTER_FACT_RIGHTS = 2,
    COUNTER_FACT_PERMITS = 3,
    COUNTER_FACT_TITLE_KEY = 4,
    COUNTER_FACT_STI_KEY = 5
};

/*
 * Tells what an entry of the card is and what it holds.
 *
 * Answers 5, 8, 9. There is no ledger here, so 9 does not ask whose application the card is of.
 * Done: *kind is its kind; *content the content ID in its title half where it is a copy, full or spent, else 0; facts are, of
 * a full entry, all six; of a copy its CCI and its title key, and 0 in the other places, for its permits and rights are its
 * row's; of any other entry six zeros. On a refusal all three keep their values.
 */
uint64_t counter_inspect_entry(bool pair, const uint8_t *titles, size_t titles_len, const uint8_t *rules, size_t rules_len,
                               uint64_t entry, uint64_t *kind, uint64_t *content, uint64_t facts[COUNTER_FACT_COUNT]);

/*
 * Tells what the row of title `content` is and what it holds.
 *
 * Answers 4, 7; 11 where the row is above R, and for no other reason.
 * Done: *state is its state; facts are all six of a row that is here, and of any other six zeros. On a refusal both keep their
 * values. (A damaged row is COUNTER_ROW_NO_STATE here; the closing sheet shows its byte 0.)
 */
uint64_t counter_inspect_row(const uint8_t *ledger, size_t ledger_len, uint64_t content, uint64_t *state,
                             uint64_t facts[COUNTER_FACT_COUNT]);

/*
 * Counts the holders and the copies of title `content`, over its row and the whole card. Its holders are its row, where that
 * is here, and each full entry with its content ID. While a ledger is used with one card and both are sound, a title that was
 * registered or recorded and not deleted has 1 holder, and as many copies as loans that are out; one that was deleted, or that
 * never was there, has neither, and its row's state tells which. With several cards on one ledger each count is of the card
 * that is lent: a title that lives on another card has 0 holders here, and its row is away. A card of another application
 * number is answered 9; where the numbers are the same and an entry has a title above R, nothing is counted of it: 11.
 *
 * Where one of the buffers was not saved after a call, there may be 0 holders, or 2 and more. There may also be 1: a full
 * entry whose row is empty, after a record, or gone, after a deletion. So the row of a full entry must be away, and that of a
 * copy here; the tool `inspect` compares them (host/inspect/faults.c). Nothing here shows a loan that took no permit, a copy
 * that gave its permit back and is still there, or a copy that a title left when it was moved out (SAVING).
 *
 * Answers 4, 7, 8, 9; 11 where the row is above R, and for no other reason.
 * Done: *holders is the number of holders, 0 to 1000, and *copies that of copies, as counter_tally counts them. On a refusal
 * both keep their values.
 */
uint64_t counter_inspect_title(bool pair, const uint8_t *ledger, size_t ledger_len, const uint8_t *titles, size_t titles_len,
                               const uint8_t *rules, size_t rules_len, uint64_t content, uint64_t *holders, uint64_t *copies);

/*
 * Finds the first entry, from entry `from` on, in which a title may be put: one that is free or spent, at which no record,
 * check-out or move in is answered 10.
 *
 * Answers 5 where from is not 1 to 999; 8, 9, as inspecting an entry.
 * Done: *entry is the number of that entry, or 0 where there is none from there on. Behind entry 999 go on from 1. On a
 * refusal it keeps its value.
 */
uint64_t counter_first_vacant(bool pair, const uint8_t *titles, size_t titles_len, const uint8_t *rules, size_t rules_len,
                              uint64_t from, uint64_t *entry);

/*
 * THE CLOSING SHEET
 *
 * What a ledger and a card show of each title, as text to print. It has a line for each row that is not empty, the lowest row
 * first, with five decimal numbers and one space between them:
 *
 *   row       1 to R
 *   state     1 here, 2 away, 3 gone; of a damaged row, which is in no state, its byte 0
 *   permits   the row's permits where it is here, those of its title's entry where it is away, else 0; 15 means unlimited
 *   rights    the row's move rights where it is here, those of its title's entry where it is away, else 0; 15 means unlimited
 *   copies    how many loan copies are on the card, as counter_tally counts them
 *
 * The sheet has permits before rights; facts and calls have rights first. A title's entry is the first full one with its
 * content ID; permits and rights are 0 where the card that is lent has none: it is damaged, was formatted, or the title lives
 * on another card. A damaged row's byte 0 may be 1, where a fact is out of range: counter_inspect_row tells such a row from
 * one that is here.
 *
 * Behind the lines of the rows comes a line "total" with two sums over them: of the permits other than 15, and of the copies.
 * Copies of a title without a line, as a damaged card may have, are not in the second. The last line is "spent" and the number of
 * entries of the card that are spent, 0 included. Each line ends with a line feed (10), and nothing comes after the last one,
 * no 0 either.
 *
 * While the ledger was used with this card alone, neither was formatted again or written by anyone else, and the title's
 * holder was not deleted, its permits, its copies and those of its copies that were deleted add up to the permits that it was
 * granted, where these are at most 14. A title whose holder was deleted shows 3 0 0 0.
 */

/* Room for any sheet. */
#define COUNTER_SHEET_SIZE 18432

/*
 * Writes the closing sheet of a ledger and a card at the front of text.
 *
 * Answers 7, 8, 9; 1 where text_len is less than the sheet needs, which is at most COUNTER_SHEET_SIZE. (The text of 1 speaks
 * of request bytes; here it is too little room for the sheet.)
 * Done: *used is the count of bytes written, and no byte after them changes. On a refusal it keeps its value. Ledger and
 * tables are only read.
 */
uint64_t counter_sheet(bool pair, const uint8_t *ledger, size_t ledger_len, const uint8_t *titles, size_t titles_len,
                       const uint8_t *rules, size_t rules_len, uint8_t *text, size_t text_len, size_t *used);

/*
 * REQUESTS
 *
 * A request is one of the seven calls as bytes, for a log or a line: its kind and its arguments, each a number in groups of
 * seven bits, the low group first, with the top bit set in all bytes but the last. Every request has one written form. It
 * does not say of which pair the call is; a shop that logs both keeps two logs.
 *
 *   kind           arguments
 *   1 register     content, cci, trigger, rights, permits, title_key, sti_key
 *   2 record       content, entry, cci, trigger, rights, permits, title_key, sti_key, hash
 *   3 check-out    content, entry
 *   4 check-in     entry, f1
 *   5 move out     entry, hash, f1, f2, f3, f4
 *   6 move in      content, entry, hash
 *   7 delete       entry, f1, f2, f3, f4
 */
#define COUNTER_ARGUMENTS 9
#define COUNTER_LONGEST_REQUEST 53

/* The kinds. */
enum {
    COUNTER_REGISTER = 1,
    COUNTER_RECORD = 2,
    COUNTER_CHECK_OUT = 3,
    COUNTER_CHECK_IN = 4,
    COUNTER_MOVE_OUT = 5,
    COUNTER_MOVE_IN = 6,
    COUNTER_DELETE = 7
};

/*
 * A request in numbers: its kind, and its arguments in their order. What stands in the places after them counts for nothing.
 * Bytes are read into a struct counter_request r by counter_read_request(bytes, bytes_len, &r.kind, r.arguments, &used).
 */
struct counter_request {
    uint64_t kind;
    uint64_t arguments[COUNTER_ARGUMENTS];
};

/*
 * Reads the request at the front of bytes. With no byte left it answers 1, so ask for the end first. After a refusal it is not
 * known where the next request begins.
 *
 * Answers, at the first number that is at fault: 1 where the bytes end inside it; 2 where it is not in its shortest form
 * or above 2^64 - 1; 3 where it is the kind and not 1 to 7; 4, 5 or 6 where it is an argument past its limit.
 * Done: *kind is the kind; arguments has its arguments in their order and 0 in the places after them; *used is the count
 * of bytes that the request took: the next one starts there. On a refusal all three keep their values.
 */
uint64_t counter_read_request(const uint8_t *bytes, size_t bytes_len, uint64_t *kind, uint64_t arguments[COUNTER_ARGUMENTS],
                              size_t *used);

/*
 * Writes a request at the front of bytes. Of the arguments it looks at as many as the kind has; there are always nine places.
 *
 * Answers 3 where kind is not 1 to 7; 4, 5 or 6 at the first argument past its limit; then 1 where bytes_len is less than
 * the request needs, which is at most COUNTER_LONGEST_REQUEST.
 * Done: *used is the count of bytes written, and no byte after them changes. On a refusal it keeps its value.
 */
uint64_t counter_write_request(uint8_t *bytes, size_t bytes_len, uint64_t kind, const uint64_t arguments[COUNTER_ARGUMENTS],
                               size_t *used);

/*
 * Carries out a request that is given in numbers: the call of its kind, with its arguments.
 *
 * Answers 3 where its kind is not 1 to 7; else what the call answers.
 * Done: the buffers are as the call leaves them. (A move in reports no entries here; counter_move_in does.)
 */
uint64_t counter_perform(bool pair, uint8_t *ledger, size_t ledger_len, uint8_t *titles, size_t titles_len, uint8_t *rules,
                         size_t rules_len, const struct counter_request *request);

/*
 * PREVIEW
 *
 * A basket is up to 16 requests. Its preview tells what they would be answered if they were carried out now, one after
 * another, each on what the one before it left: it copies ledger and tables to three scratch buffers of the caller's and
 * carries the requests out there. So the originals stay as they are, and nothing has happened to any title. To commit the
 * basket, give its requests to counter_perform in their order, with the same pair: if nothing else was done to the originals
 * meanwhile, it answers what the preview told, and the buffers end as the scratch buffers did. A preview may be left at that,
 * or be made again with another basket; what stood in the scratch buffers before counts for nothing.
 */

/* The places of a basket, and of its answers. */
#define COUNTER_BASKET_SIZE 16

/*
 * Previews the first `count` requests of a basket. What stands in the places after them counts for nothing; there are always
 * sixteen, and as many for the answers. Originals given as scratch buffers overlap, which is excluded above: nothing is
 * promised then.
 *
 * Answers 17 where count is above 16; 18 where a scratch buffer's length is not that of its original. No request is looked at
 * before that, and a head that is wrong, 7 to 9, is no refusal of the preview but the answer to each request that meets it.
 * Done: answers has the answer of each request in its place: 0, or the number that it is refused with, and 3 where a place
 * has a kind that is none. A refused request changes nothing, and those after it are carried out all the same. Places past
 * the count have 0. The scratch buffers are as the requests that were done leave them.
 * On a refusal no byte of the scratch buffers changes, and answers keep their values. Ledger, tables and basket are only read.
 */
uint64_t counter_preview(bool pair, const uint8_t *ledger, size_t ledger_len, const uint8_t *titles, size_t titles_len,
                         const uint8_t *rules, size_t rules_len, uint8_t *scratch_ledger, size_t scratch_ledger_len,
                         uint8_t *scratch_titles, size_t scratch_titles_len, uint8_t *scratch_rules, size_t scratch_rules_len,
                         const struct counter_request basket[COUNTER_BASKET_SIZE], uint64_t count,
                         uint64_t answers[COUNTER_BASKET_SIZE]);

#ifdef __cplusplus
}
#endif

#endif

/* What the benchmark runs: a shop's ledger and card in some state, and a batch of calls on it. */
#ifndef SCENES_H
#define SCENES_H

#include <stdbool.h>
#include <stddef.h>
#include <stdint.h>

#include "music_counter.h"

/* The functions of music_counter.h, of one library or the other. */
struct counter {
    uint64_t (*format_ledger)(uint8_t *, size_t, uint64_t, uint16_t);
    uint64_t (*format_card)(bool, uint8_t *, size_t, uint8_t *, size_t, uint16_t);
    uint64_t (*register_title)(uint8_t *, size_t, uint64_t, uint64_t, uint64_t, uint64_t, uint64_t, uint64_t, uint64_t);
    uint64_t (*record)(bool, uint8_t *, size_t, uint8_t *, size_t, uint8_t *, size_t, uint64_t, uint64_t, uint64_t, uint64_t,
                       uint64_t, uint64_t, uint64_t, uint64_t, uint64_t);
    uint64_t (*check_out)(bool, uint8_t *, size_t, uint8_t *, size_t, const uint8_t *, size_t, uint64_t, uint64_t);
    uint64_t (*check_in)(bool, uint8_t *, size_t, uint8_t *, size_t, const uint8_t *, size_t, uint64_t, uint64_t);
    uint64_t (*move_out)(bool, uint8_t *, size_t, uint8_t *, size_t, uint8_t *, size_t, uint64_t, uint64_t, uint64_t,
                         uint64_t, uint64_t, uint64_t);
    uint64_t (*move_in)(bool, uint8_t *, size_t, uint8_t *, size_t, uint8_t *, size_t, uint64_t, uint64_t, uint64_t,
                        uint64_t *);
    uint64_t (*delete_entry)(bool, uint8_t *, size_t, uint8_t *, size_t, uint8_t *, size_t, uint64_t, uint64_t, uint64_t,
                             uint64_t, uint64_t);
    uint64_t (*tally)(bool, const uint8_t *, size_t, const uint8_t *, size_t, uint64_t, uint64_t *);
    uint64_t (*inspect_entry)(bool, const uint8_t *, size_t, const uint8_t *, size_t, uint64_t, uint64_t *, uint64_t *,
                              uint64_t *);
    uint64_t (*inspect_row)(const uint8_t *, size_t, uint64_t, uint64_t *, uint64_t *);
    uint64_t (*inspect_title)(bool, const uint8_t *, size_t, const uint8_t *, size_t, const uint8_t *, size_t, uint64_t,
                              uint64_t *, uint64_t *);
    uint64_t (*first_vacant)(bool, const uint8_t *, size_t, const uint8_t *, size_t, uint64_t, uint64_t *);
    uint64_t (*sheet)(bool, const uint8_t *, size_t, const uint8_t *, size_t, const uint8_t *, size_t, uint8_t *, size_t,
                      size_t *);
    uint64_t (*read_request)(const uint8_t *, size_t, uint64_t *, uint64_t *, size_t *);
    uint64_t (*write_request)(uint8_t *, size_t, uint64_t, const uint64_t *, size_t *);
    uint64_t (*perform)(bool, uint8_t *, size_t, uint8_t *, size_t, uint8_t *, size_t, const struct counter_request *);
    uint64_t (*preview)(bool, const uint8_t *, size_t, const uint8_t *, size_t, const uint8_t *, size_t, uint8_t *, size_t,
                        uint8_t *, size_t, uint8_t *, size_t, const struct counter_request *, uint64_t, uint64_t *);
};

extern const struct counter proved, plain;

/* Requests, and their bytes one after another. */
#define REQUESTS 256

struct stream {
    uint64_t kind[REQUESTS], arguments[REQUESTS][COUNTER_ARGUMENTS];
    uint8_t bytes[REQUESTS * COUNTER_LONGEST_REQUEST];
    size_t length;
};

/* Requests to preview, and what each of them is answered. */
struct basket {
    uint64_t count, answer;
    struct counter_request requests[COUNTER_BASKET_SIZE];
};

/* The caller's buffers. */
struct shop {
    uint8_t ledger[COUNTER_LEDGER_SIZE(COUNTER_MOST_ROWS)];
    uint8_t titles[COUNTER_TITLES_SIZE];
    uint8_t rules[COUNTER_RULES_SIZE];
};

#define LEDGER(shop) (shop)->ledger, sizeof (shop)->ledger
#define TITLES(shop) (shop)->titles, sizeof (shop)->titles
#define RULES(shop) (shop)->rules, sizeof (shop)->rules

/* Entries, or rows, from the first to the last; none where both are 0. */
struct run {
    unsigned first, last, step;
};

struct scene;

/* Runs a scene's calls on one shop. The answers are added up. */
typedef uint64_t batch(const struct counter *counter, struct shop *shop, const struct scene *scene);

/*
 * The card is an audio card, and the ledger has 999 rows where none are given. Title 1, whose permits and move rights are not
 * counted down, is in row 1, and others like it are in the rows of the run `here`. Entries of the run `copies` have a copy of the
 * title `lent`; those of the run `full` hold titles that differ, in entry j title 1000 - j.
 */
struct scene {
    const char *section, *operation, *card;
    unsigned rows;
    struct run here, copies, full;
    unsigned lent;
    int stale;        /* the copies were checked in again, so that their entries are spent: flag 0, and the content ID */
    uint8_t permits;  /* title 1's, where they are not unlimited */
    unsigned in_use;  /* entries in use, in the section on growth */
    batch *batch;
    struct run places; /* the entries, or rows, that the calls name */
    unsigned content;  /* the title that a tally or an inspection names */
    unsigned calls;    /* a batch's calls on one shop */
    unsigned shops;    /* a batch is run on so many shops alike */
    uint64_t answer;   /* of every call */
    struct stream *stream;
    const struct basket *basket;
};

#define MOST_SCENES 128
#define MOST_SHOPS 8

extern struct scene scenes[MOST_SCENES];
extern size_t scene_count;

void make_scenes(void);

/* Brings a shop into the state from which a scene's calls start. */
void prepare(struct shop *shop, const struct scene *scene);

/*
 * What a scene's calls write beside the shop: requests, or a sheet; of a preview the scratch buffers and the answers; of an
 * inspection what it tells.
 */
struct output {
    uint8_t bytes[COUNTER_SHEET_SIZE];
    struct shop scratch;
    uint64_t answers[COUNTER_BASKET_SIZE];
    uint64_t told[2], facts[COUNTER_FACT_COUNT];
};

_Static_assert(REQUESTS * COUNTER_LONGEST_REQUEST <= COUNTER_SHEET_SIZE, "room for the requests");
extern struct output written;

/* Ends the program where the two libraries differ on random shops, calls, requests and previews. */
void check_random(unsigned shops);

#endif

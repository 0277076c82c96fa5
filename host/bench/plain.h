/*
 * The counter's operations in plain C, written from documents 01 and 02 for the benchmark: what the proved library is compared
 * with. Each function takes, answers and leaves what its namesake in music_counter.h does.
 */
#ifndef PLAIN_H
#define PLAIN_H

#include <stdbool.h>
#include <stddef.h>
#include <stdint.h>

#include "music_counter.h"

uint64_t plain_format_ledger(uint8_t *ledger, size_t ledger_len, uint64_t rows, uint16_t application);

uint64_t plain_format_card(bool pair, uint8_t *titles, size_t titles_len, uint8_t *rules, size_t rules_len,
                           uint16_t application);

uint64_t plain_register(uint8_t *ledger, size_t ledger_len, uint64_t content, uint64_t cci, uint64_t trigger,
                        uint64_t rights, uint64_t permits, uint64_t title_key, uint64_t sti_key);

uint64_t plain_record(bool pair, uint8_t *ledger, size_t ledger_len, uint8_t *titles, size_t titles_len, uint8_t *rules,
                      size_t rules_len, uint64_t content, uint64_t entry, uint64_t cci, uint64_t trigger, uint64_t rights,
                      uint64_t permits, uint64_t title_key, uint64_t sti_key, uint64_t hash);

uint64_t plain_check_out(bool pair, uint8_t *ledger, size_t ledger_len, uint8_t *titles, size_t titles_len,
                         const uint8_t *rules, size_t rules_len, uint64_t content, uint64_t entry);

uint64_t plain_check_in(bool pair, uint8_t *ledger, size_t ledger_len, uint8_t *titles, size_t titles_len,
                        const uint8_t *rules, size_t rules_len, uint64_t entry, uint64_t f1);

uint64_t plain_move_out(bool pair, uint8_t *ledger, size_t ledger_len, uint8_t *titles, size_t titles_len, uint8_t *rules,
                        size_t rules_len, uint64_t entry, uint64_t hash, uint64_t f1, uint64_t f2, uint64_t f3,
                        uint64_t f4);

uint64_t plain_move_in(bool pair, uint8_t *ledger, size_t ledger_len, uint8_t *titles, size_t titles_len, uint8_t *rules,
                       size_t rules_len, uint64_t content, uint64_t entry, uint64_t hash, uint64_t *entries_read);

uint64_t plain_delete(bool pair, uint8_t *ledger, size_t ledger_len, uint8_t *titles, size_t titles_len, uint8_t *rules,
                      size_t rules_len, uint64_t entry, uint64_t f1, uint64_t f2, uint64_t f3, uint64_t f4);

uint64_t plain_tally(bool pair, const uint8_t *titles, size_t titles_len, const uint8_t *rules, size_t rules_len,
                     uint64_t content, uint64_t *copies);

uint64_t plain_inspect_entry(bool pair, const uint8_t *titles, size_t titles_len, const uint8_t *rules, size_t rules_len,
                             uint64_t entry, uint64_t *kind, uint64_t *content, uint64_t facts[COUNTER_FACT_COUNT]);

uint64_t plain_inspect_row(const uint8_t *ledger, size_t ledger_len, uint64_t content, uint64_t *state,
                           uint64_t facts[COUNTER_FACT_COUNT]);

uint64_t plain_inspect_title(bool pair, const uint8_t *ledger, size_t ledger_len, const uint8_t *titles, size_t titles_len,
                             const uint8_t *rules, size_t rules_len, uint64_t content, uint64_t *holders, uint64_t *copies);

uint64_t plain_first_vacant(bool pair, const uint8_t *titles, size_t titles_len, const uint8_t *rules, size_t rules_len,
                            uint64_t from, uint64_t *entry);

uint64_t plain_sheet(bool pair, const uint8_t *ledger, size_t ledger_len, const uint8_t *titles, size_t titles_len,
                     const uint8_t *rules, size_t rules_len, uint8_t *text, size_t text_len, size_t *used);

uint64_t plain_read_request(const uint8_t *bytes, size_t bytes_len, uint64_t *kind, uint64_t arguments[COUNTER_ARGUMENTS],
                            size_t *used);

uint64_t plain_write_request(uint8_t *bytes, size_t bytes_len, uint64_t kind, const uint64_t arguments[COUNTER_ARGUMENTS],
                             size_t *used);

uint64_t plain_perform(bool pair, uint8_t *ledger, size_t ledger_len, uint8_t *titles, size_t titles_len, uint8_t *rules,
                       size_t rules_len, const struct counter_request *request);

uint64_t plain_preview(bool pair, const uint8_t *ledger, size_t ledger_len, const uint8_t *titles, size_t titles_len,
                       const uint8_t *rules, size_t rules_len, uint8_t *scratch_ledger, size_t scratch_ledger_len,
                       uint8_t *scratch_titles, size_t scratch_titles_len, uint8_t *scratch_rules, size_t scratch_rules_len,
                       const struct counter_request basket[COUNTER_BASKET_SIZE], uint64_t count,
                       uint64_t answers[COUNTER_BASKET_SIZE]);

#endif

/*
 * inspect: shows what stands in a card's two tables and in a ledger, and what of it does not fit together. Of entries, rows
 * and titles it shows what the library tells.
 */
#include <string.h>

#include "inspect.h"

static const char usage[] =
    "inspect [--picture] [--keys] TITLES RULES [LEDGER]\n"
    "\n"
    "Shows the card whose opened title table and rule table are in the files TITLES and RULES, and the ledger that is\n"
    "in LEDGER: the heads, every entry and row that is in use, how many there are of each kind, and a line for each\n"
    "thing that is off.\n"
    "\n"
    "A ledger serves many cards. A title whose row is away and which this card does not have is on another card or lost,\n"
    "and has a line too.\n"
    "\n"
    "  --picture   the card is for pictures, not for music\n"
    "  --keys      title keys and STI keys are shown too\n"
    "\n"
    "The exit status is 0 where all is well, 1 where something is off, and 2 where a file cannot be read or the command\n"
    "is wrong.\n";

/* Three files are as many as there may be. */
#define MOST_FILES 3

struct command {
    bool pair, with_keys, help;
    const char *files[MOST_FILES];
    size_t file_count;
};

/* ---------------------------------------------------------------- the command */

static bool take_word(struct command *command, const char *word)
{
    if (strcmp(word, "--picture") == 0)
        command->pair = COUNTER_PICTURE;
    else if (strcmp(word, "--keys") == 0)
        command->with_keys = true;
    else if (strcmp(word, "--help") == 0)
        command->help = true;
    else if (word[0] == '-' || command->file_count == MOST_FILES)
        return false;
    else
        command->files[command->file_count++] = word;
    return true;
}

/* Where it cannot be understood, says so. */
static bool take_command(int count, char **words, struct command *command)
{
    for (int i = 1; i < count; i++)
        if (!take_word(command, words[i])) {
            fprintf(stderr, "%s: %s\n\n%s", shown(words[i]), words[i][0] == '-' ? "no such option" : "a file too many",
                    usage);
            return false;
        }
    if (command->help || command->file_count >= 2)
        return true;
    fprintf(stderr, "a title table and a rule table are needed\n\n%s", usage);
    return false;
}

/* ---------------------------------------------------------------- what is inspected */

static bool read_files(const struct command *command, struct inspection *seen)
{
    seen->pair = command->pair;
    seen->with_keys = command->with_keys;
    seen->with_ledger = command->file_count == MOST_FILES;
    return read_file(command->files[0], &seen->titles) && read_file(command->files[1], &seen->rules)
        && (!seen->with_ledger || read_file(command->files[2], &seen->ledger));
}

static void read_entries(struct inspection *seen)
{
    const struct file *t = &seen->titles, *r = &seen->rules;

    for (uint64_t number = 1; number <= COUNTER_LAST_ENTRY; number++) {
        struct told *entry = &seen->entries[number];

        if (counter_inspect_entry(seen->pair, t->bytes, t->length, r->bytes, r->length, number, &entry->kind_or_state,
                                  &entry->content, entry->facts) != COUNTER_DONE)
            return;
        seen->entry_count = number;
    }
}

/* Row 999 is the last that there can be; the first that is refused is above R. */
static void read_rows(struct inspection *seen)
{
    for (uint64_t content = 1; content <= COUNTER_MOST_ROWS; content++) {
        struct told *row = &seen->rows[content];

        if (counter_inspect_row(seen->ledger.bytes, seen->ledger.length, content, &row->kind_or_state, row->facts)
            != COUNTER_DONE)
            return;
        seen->row_count = content;
    }
}

static void inspect(struct inspection *seen)
{
    judge_heads(seen);
    read_entries(seen);
    if (seen->with_ledger)
        read_rows(seen);
    print_heads(seen);
    print_entries(seen);
    print_rows(seen);
    print_counts(seen);
    print_what_is_off(seen);
}

int main(int argc, char **argv)
{
    static struct inspection seen;
    struct command command = {COUNTER_AUDIO, false, false, {NULL}, 0};

    if (!take_command(argc, argv, &command))
        return FAILED;
    if (command.help)
        fputs(usage, stdout);
    else if (read_files(&command, &seen))
        inspect(&seen);
    else
        return FAILED;
    if (!written_out())
        return FAILED;
    return seen.off_count == 0 ? WELL : OFF;
}

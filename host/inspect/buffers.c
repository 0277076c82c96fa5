/* buffers: carries out a history of requests and writes the ledger and the card that it leaves to files. */
#include <inttypes.h>
#include <stdlib.h>
#include <string.h>

#include "files.h"
#include "music_counter.h"

static const char usage[] =
    "buffers [--picture] [--rows N] [--application N] TITLES RULES LEDGER < REQUESTS\n"
    "\n"
    "Formats a ledger and a card, carries out the requests whose bytes stand on standard input, and writes the card's\n"
    "title table and rule table and the ledger to these files. The first request that cannot be read ends the history.\n"
    "\n"
    "  --picture         the card is for pictures, not for music\n"
    "  --rows N          rows of the ledger, 1 to 999; else 64\n"
    "  --application N   application number of ledger and card, 0 to 65535; else 0\n"
    "\n"
    "The exit status is 0, 1 where a request cannot be read, 2 where a file cannot be written or the command is wrong.\n";

#define MOST_FILES 3

struct command {
    bool pair, help;
    uint64_t rows, application;
    const char *files[MOST_FILES];
    size_t file_count;
};

/* The buffers of the caller. The ledger has room for the most rows. */
static uint8_t ledger[COUNTER_LEDGER_SIZE(COUNTER_MOST_ROWS)], titles[COUNTER_TITLES_SIZE], rules[COUNTER_RULES_SIZE];
static size_t ledger_length;

/* ---------------------------------------------------------------- the command */

static bool complain(const char *word, const char *what)
{
    fprintf(stderr, "%s: %s\n\n%s", shown(word), what, usage);
    return false;
}

/* Decimal digits and nothing else: strtoul would take a sign and spaces too. */
static bool take_number(const char *digits, uint64_t least, uint64_t most, uint64_t *number)
{
    size_t count = digits == NULL ? 0 : strspn(digits, "0123456789");

    if (count == 0 || digits[count] != '\0')
        return false;
    *number = 0;
    for (size_t i = 0; i < count && *number <= most; i++)
        *number = 10 * *number + (uint64_t)(digits[i] - '0');
    return least <= *number && *number <= most;
}

/* Of a file that is written twice only the second would be left. */
static bool is_named(const struct command *command, const char *word)
{
    for (size_t i = 0; i < command->file_count; i++)
        if (strcmp(command->files[i], word) == 0)
            return true;
    return false;
}

/* Takes a word, and the next one where that is its value. */
static bool take_word(struct command *command, const char *word, const char *value)
{
    if (strcmp(word, "--rows") == 0)
        return take_number(value, 1, COUNTER_MOST_ROWS, &command->rows)
            || complain(word, "needs a number from 1 to 999");
    if (strcmp(word, "--application") == 0)
        return take_number(value, 0, UINT16_MAX, &command->application)
            || complain(word, "needs a number from 0 to 65535");
    if (strcmp(word, "--picture") == 0)
        command->pair = COUNTER_PICTURE;
    else if (strcmp(word, "--help") == 0)
        command->help = true;
    else if (word[0] == '-')
        return complain(word, "no such option");
    else if (command->file_count == MOST_FILES)
        return complain(word, "a file too many");
    else if (is_named(command, word))
        return complain(word, "named twice");
    else
        command->files[command->file_count++] = word;
    return true;
}

static bool has_value(const char *word)
{
    return strcmp(word, "--rows") == 0 || strcmp(word, "--application") == 0;
}

static bool take_command(char **words, struct command *command)
{
    for (char **word = words; *word != NULL; word += has_value(*word) ? 2 : 1)
        if (!take_word(command, *word, word[1]))
            return false;
    if (command->help || command->file_count == MOST_FILES)
        return true;
    fprintf(stderr, "a title table, a rule table and a ledger are needed\n\n%s", usage);
    return false;
}

/* ---------------------------------------------------------------- the history */

/* How many requests were carried out and how many of them refused; what ended reading, at which byte. */
struct history {
    unsigned long requests, refused;
    uint64_t answer;
    size_t read;
};

static void format(const struct command *command)
{
    ledger_length = COUNTER_LEDGER_SIZE(command->rows);
    counter_format_ledger(ledger, ledger_length, command->rows, (uint16_t)command->application);
    counter_format_card(command->pair, titles, sizeof titles, rules, sizeof rules, (uint16_t)command->application);
}

static void perform(bool pair, const struct file *input, struct history *history)
{
    struct counter_request request;
    size_t used;

    while (history->read < input->length) {
        history->answer = counter_read_request(input->bytes + history->read, input->length - history->read,
                                               &request.kind, request.arguments, &used);
        if (history->answer != COUNTER_DONE)
            return;
        history->read += used;
        history->requests++;
        if (counter_perform(pair, ledger, ledger_length, titles, sizeof titles, rules, sizeof rules, &request)
            != COUNTER_DONE)
            history->refused++;
    }
}

static bool write_files(const struct command *command)
{
    return write_file(command->files[0], titles, sizeof titles) && write_file(command->files[1], rules, sizeof rules)
        && write_file(command->files[2], ledger, ledger_length);
}

/* Answers the exit status. */
static int carry_out(const struct command *command)
{
    struct history history = {0, 0, COUNTER_DONE, 0};
    struct file input;

    if (!read_stream("standard input", stdin, &input))
        return FAILED;
    format(command);
    perform(command->pair, &input, &history);
    free(input.bytes);
    if (!write_files(command))
        return FAILED;
    printf("%lu request%s, %lu of them refused\n", history.requests, plural(history.requests), history.refused);
    if (history.answer == COUNTER_DONE)
        return WELL;
    fprintf(stderr, "request %lu, at byte %zu: cannot be read, %" PRIu64 ": %s\n", history.requests + 1, history.read,
            history.answer, counter_text(history.answer));
    return OFF;
}

int main(int argc, char **argv)
{
    struct command command = {COUNTER_AUDIO, false, 64, 0, {NULL}, 0};
    int status = WELL;

    if (argc == 0 || !take_command(argv + 1, &command))
        return FAILED;
    if (command.help)
        fputs(usage, stdout);
    else
        status = carry_out(&command);
    return written_out() ? status : FAILED;
}

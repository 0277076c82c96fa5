/*
 * Times the proved library against plain C: bench RESULTS, where RESULTS is the file for the numbers, tab-separated.
 *
 * Both are first checked to answer the same and to leave the same bytes. Then they take turns, scene by scene, in many
 * rounds, and who goes first changes from round to round. A number is the median over the rounds.
 */
#define _POSIX_C_SOURCE 200809L
#include <inttypes.h>
#include <stdio.h>
#include <stdlib.h>
#include <string.h>
#include <time.h>

#include "scenes.h"

#define ROUNDS 101
#define RANDOM_SHOPS 10000

static const struct counter *const counters[2] = {&proved, &plain};

/* Nanoseconds per call. */
static double samples[MOST_SCENES][2][ROUNDS];
static double medians[MOST_SCENES][2];
static double shortest_batch = 1e9;

static _Alignas(64) struct shop starts[MOST_SCENES];
static _Alignas(64) struct shop shops[MOST_SHOPS];
static volatile uint64_t sink;

/* ---------------------------------------------------------------- running */

static void restore(size_t scene)
{
    for (unsigned i = 0; i < scenes[scene].shops; i++)
        memcpy(&shops[i], &starts[scene], sizeof shops[i]);
}

static uint64_t run(size_t scene, const struct counter *counter)
{
    uint64_t sum = 0;

    for (unsigned i = 0; i < scenes[scene].shops; i++)
        sum += scenes[scene].batch(counter, &shops[i], &scenes[scene]);
    return sum;
}

static unsigned calls_of(const struct scene *scene)
{
    return scene->calls * scene->shops;
}

static void fail(const struct scene *scene, const char *what)
{
    printf("%s, %s: %s\n", scene->operation, scene->card, what);
    exit(1);
}

static double now(void)
{
    struct timespec time;

    clock_gettime(CLOCK_MONOTONIC, &time);
    return 1e9 * (double)time.tv_sec + (double)time.tv_nsec;
}

/* Once untimed, so that caches and branches know both, and once timed. */
static double time_once(size_t scene, const struct counter *counter)
{
    double start, end;
    uint64_t sum;

    restore(scene);
    sink = run(scene, counter);
    restore(scene);
    start = now();
    sum = run(scene, counter);
    end = now();
    sink = sum;
    if (sum != scenes[scene].answer * calls_of(&scenes[scene]))
        fail(&scenes[scene], "a timed call has another answer");
    if (end - start < shortest_batch)
        shortest_batch = end - start;
    return (end - start) / calls_of(&scenes[scene]);
}

/* Who goes first changes from round to round. */
static void time_rounds(void)
{
    for (unsigned round = 0; round < ROUNDS; round++)
        for (size_t i = 0; i < scene_count; i++)
            for (unsigned turn = 0; turn < 2; turn++) {
                unsigned which = (turn + round) % 2;

                samples[i][which][round] = time_once(i, counters[which]);
            }
}

/* ---------------------------------------------------------------- checking */

/* Each request of a previewed basket is answered what the scene is to measure. */
static void check_basket(const struct scene *scene)
{
    for (uint64_t i = 0; i < scene->basket->count; i++)
        if (written.answers[i] != scene->basket->answer)
            fail(scene, "a request of the basket has another answer");
}

static void check_scene(size_t scene)
{
    static struct shop after;
    static struct output written_before;

    prepare(&starts[scene], &scenes[scene]);
    for (int which = 0; which < 2; which++) {
        restore(scene);
        memset(&written, 0xa5, sizeof written);
        if (run(scene, counters[which]) != scenes[scene].answer * calls_of(&scenes[scene]))
            fail(&scenes[scene], which == 0 ? "proved: another answer" : "plain: another answer");
        if (which == 1 && (memcmp(&after, &shops[0], sizeof after) != 0 ||
                           memcmp(&written_before, &written, sizeof written) != 0))
            fail(&scenes[scene], "the libraries leave different bytes");
        if (scenes[scene].basket != NULL)
            check_basket(&scenes[scene]);
        after = shops[0];
        written_before = written;
    }
}

/* What is read back, argument by argument. */
static void check_stream(const struct scene *scene)
{
    const struct stream *stream = scene->stream;
    size_t at = 0;

    for (unsigned i = 0; i < REQUESTS; i++) {
        uint64_t kind[2] = {0}, arguments[2][COUNTER_ARGUMENTS] = {{0}};
        size_t used[2] = {0};

        for (int which = 0; which < 2; which++)
            counters[which]->read_request(stream->bytes + at, stream->length - at, &kind[which], arguments[which],
                                          &used[which]);
        if (kind[0] != kind[1] || used[0] != used[1] || memcmp(arguments[0], arguments[1], sizeof arguments[0]) != 0 ||
            memcmp(arguments[0], stream->arguments[i], sizeof arguments[0]) != 0)
            fail(scene, "the libraries read differently");
        at += used[0];
    }
}

/* ---------------------------------------------------------------- results */

static int compare(const void *one, const void *other)
{
    double a = *(const double *)one, b = *(const double *)other;

    return (a > b) - (a < b);
}

static void take_medians(void)
{
    for (size_t i = 0; i < scene_count; i++)
        for (int which = 0; which < 2; which++) {
            qsort(samples[i][which], ROUNDS, sizeof(double), compare);
            medians[i][which] = samples[i][which][ROUNDS / 2];
        }
}

static void show_section(const char *section, const char *title, double divisor)
{
    printf("\n%s\n%-28s %-20s %10s %10s %7s\n", title, "", "card", "proved", "plain", "ratio");
    for (size_t i = 0; i < scene_count; i++)
        if (strcmp(scenes[i].section, section) == 0)
            printf("%-28s %-20s %10.2f %10.2f %7.2f\n", scenes[i].operation, scenes[i].card, medians[i][0] / divisor,
                   medians[i][1] / divisor, medians[i][0] / medians[i][1]);
}

static void show_growth(void)
{
    printf("\nGrowth with the entries in use, ns per call\n%-8s %-20s %6s %10s %10s %7s\n", "", "card", "in use", "proved",
           "plain", "ratio");
    for (size_t i = 0; i < scene_count; i++)
        if (strcmp(scenes[i].section, "growth") == 0)
            printf("%-8s %-20s %6u %10.1f %10.1f %7.2f\n", scenes[i].operation, scenes[i].card, scenes[i].in_use,
                   medians[i][0], medians[i][1], medians[i][0] / medians[i][1]);
}

static void write_results(const char *path)
{
    FILE *file = fopen(path, "w");

    if (file == NULL) {
        perror(path);
        exit(1);
    }
    fprintf(file, "section\toperation\tcard\tin_use\tproved_ns\tplain_ns\tratio\n");
    for (size_t i = 0; i < scene_count; i++)
        fprintf(file, "%s\t%s\t%s\t%u\t%.3f\t%.3f\t%.3f\n", scenes[i].section, scenes[i].operation, scenes[i].card,
                scenes[i].in_use, medians[i][0], medians[i][1], medians[i][0] / medians[i][1]);
    if (fclose(file) != 0) {
        perror(path);
        exit(1);
    }
}

/* The first line of a file that starts with these words. */
static void show_line(const char *path, const char *start, const char *name)
{
    char line[256];
    FILE *file = fopen(path, "r");

    if (file == NULL)
        return;
    while (fgets(line, sizeof line, file) != NULL)
        if (strncmp(line, start, strlen(start)) == 0) {
            char *value = strchr(line, ':');

            printf("%s: %s", name, value == NULL ? line : value + 2);
            break;
        }
    fclose(file);
}

/* Other programs that run meanwhile make every number larger, and not all by the same factor: hence the load. */
static void show_load(const char *when)
{
    show_line("/proc/loadavg", "", when);
}

static void show_machine(int count, char **words)
{
    show_line("/proc/cpuinfo", "model name", "Processor");
    show_load("Load before");
    printf("Compiler of the plain C: gcc %s, -O3, loops and jumps aligned to 32\nCommand:", __VERSION__);
    for (int i = 0; i < count; i++)
        printf(" %s", words[i]);
    printf("\n\n");
}

int main(int count, char **words)
{
    if (count != 2) {
        fprintf(stderr, "bench RESULTS\n");
        return 1;
    }
    show_machine(count, words);
    make_scenes();
    check_random(RANDOM_SHOPS);
    for (size_t i = 0; i < scene_count; i++) {
        check_scene(i);
        if (scenes[i].stream != NULL)
            check_stream(&scenes[i]);
    }
    time_rounds();
    take_medians();
    printf("\nA call that is timed in many entries finds what it needs there: on a card of the other sort these are every second\n"
           "entry, and the rest is as the card is named (record and check-out need free or spent entries, check-in and delete\n"
           "copy need copies, move out and delete title full ones). A move in has entry 999 free on a full card; its row and that\n"
           "entry are put back between calls, within the time. A first vacant entry is sought from entry 1 on. A sheet has a line for\n"
           "every row; on a card of copies and titles every second row is away. A preview copies a ledger of 999 rows and both\n"
           "tables, 72,000 bytes, whatever the basket has. All cards are audio cards.\n");
    show_section("operation", "Operations, ns per call", 1);
    show_section("refusal", "Refusals, ns per call", 1);
    show_section("scan", "Tallies, ns per entry scanned", COUNTER_LAST_ENTRY);
    show_section("card", "All 999 entries inspected, microseconds per card", 1000);
    show_section("sheet", "Sheets, microseconds per call", 1000);
    show_section("preview", "Previews, microseconds per call", 1000);
    show_growth();
    printf("\n%d rounds; the shortest timed batch took %.1f microseconds\n", ROUNDS, shortest_batch / 1000);
    show_load("Load after");
    write_results(words[1]);
    return 0;
}

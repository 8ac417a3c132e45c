/* Times one archive. Reads a case from standard input, then turns, and answers each turn with a line.
 *
 * tools/bench compiles this once for each archive, with the header that came with it. POLISH_ROUTE, PAIR_LOOP, RUN_LIST_K_OPT and NEARBY_CUTS are the
 * names of the function's parameters as that header has them, so that each archive is called in its own way. A parameter is handed the variable of
 * its name below: where the compiler misses one, a function has a new parameter, and it is given a variable here that leaves its meaning
 * as it was. PAIR_LOOP is missing where the archive has no such function: its run took the loop for k = 2. EVERY_NEARBY_CUTS may be missing too. */
#include <inttypes.h>
#include <stdio.h>
#include <stdlib.h>
#include <string.h>
#include <time.h>
#include "mittenschist.h"

/* So many bytes lie before the archive's code: where its loops lie in a cache line can make a difference of some percent, by chance. */
#define TEXT(pad) #pad
#define SKIPPED(pad) TEXT(pad)
__asm__(".text\n.skip " SKIPPED(PAD) "\n");

/* A turn lasts until so much has been counted and so much time has passed, but never beyond the last. */
static const uint64_t least_time = 2000000, most_time = 300000000;

/* More places than any result has. */
#define PLACES 1024

static size_t k, locations, n, min_segment_len, max_nearby;
static uint64_t allowance;
static uint32_t depot;
static uint32_t *legs, *latest, *service, *depots, *route, *stops;
static size_t legs_len, latest_len, service_len, depots_len, route_len, stops_len;
static size_t *lengths, *sets;
static size_t lengths_len, sets_len;
static uint8_t *pins;
static size_t pins_len;
static double *distances;
static size_t distances_len;
static uint64_t result[PLACES];
static size_t result_len = PLACES;

/* What is handed in at each call anew. */
static uint32_t *handed;
static size_t handed_len;

/* Whether the reply is told by its counts alone. */
static int counts_only;

static void fail(const char *what) {
    fprintf(stderr, "driver: %s\n", what);
    exit(1);
}

static uint64_t number(void) {
    int letter = getchar();
    while (letter == ' ' || letter == '\n') letter = getchar();
    if (letter < '0' || letter > '9') fail("a number is missing");
    uint64_t value = 0;
    for (; letter >= '0' && letter <= '9'; letter = getchar()) value = 10 * value + (uint64_t)(letter - '0');
    return value;
}

static void *room(size_t count, size_t size) {
    void *places = calloc(count ? count : 1, size);
    if (!places) fail("no memory");
    return places;
}

static uint32_t *words(size_t *len) {
    *len = number();
    uint32_t *places = room(*len, sizeof *places);
    for (size_t i = 0; i < *len; i++) places[i] = (uint32_t)number();
    return places;
}

static size_t *sizes(size_t *len) {
    *len = number();
    size_t *places = room(*len, sizeof *places);
    for (size_t i = 0; i < *len; i++) places[i] = number();
    return places;
}

static uint8_t *bytes(size_t *len) {
    *len = number();
    uint8_t *places = room(*len, sizeof *places);
    for (size_t i = 0; i < *len; i++) places[i] = (uint8_t)number();
    return places;
}

/* By their bits. */
static double *floats(size_t *len) {
    *len = number();
    double *places = room(*len, sizeof *places);
    for (size_t i = 0; i < *len; i++) {
        uint64_t bits = number();
        memcpy(&places[i], &bits, sizeof bits);
    }
    return places;
}

static void read_tables(void) {
    k = number();
    allowance = number();
    locations = number();
    legs = words(&legs_len);
    latest = words(&latest_len);
    service = words(&service_len);
}

static void read_polish(void) {
    read_tables();
    depot = (uint32_t)number();
    handed = words(&handed_len);
    route_len = handed_len;
    route = room(route_len, sizeof *route);
}

static void read_pairs(void) {
    read_polish();
    counts_only = 1;
#ifndef PAIR_LOOP
    stops_len = route_len;
    stops = room(stops_len, sizeof *stops);
    lengths_len = depots_len = pins_len = 1;
    lengths = room(1, sizeof *lengths);
    depots = room(1, sizeof *depots);
    pins = room(1, sizeof *pins);
    lengths[0] = route_len;
    depots[0] = depot;
#endif
}

static void read_run(void) {
    read_tables();
    handed = words(&handed_len);
    stops_len = handed_len;
    stops = room(stops_len, sizeof *stops);
    lengths = sizes(&lengths_len);
    depots = words(&depots_len);
    pins = bytes(&pins_len);
}

static void read_nearby(void) {
    n = number();
    distances = floats(&distances_len);
    k = number();
    min_segment_len = number();
    max_nearby = number();
    sets_len = number();
    sets = room(sets_len, sizeof *sets);
}

static uint64_t now(void) {
    struct timespec at;
    clock_gettime(CLOCK_MONOTONIC, &at);
    return (uint64_t)at.tv_sec * 1000000000u + (uint64_t)at.tv_nsec;
}

static void taken(uint32_t refused) {
    if (refused) fail("a case was refused");
}

/* The calls: each adds its time, and answers what it counts, candidates or sets. */

static uint64_t polish(uint64_t *time) {
    memcpy(route, handed, handed_len * sizeof *route);
    uint64_t start = now();
    uint32_t refused = mittenschist_polish_route(POLISH_ROUTE);
    *time += now() - start;
    taken(refused);
    return result[1];
}

static uint64_t pairs(uint64_t *time) {
#ifdef PAIR_LOOP
    memcpy(route, handed, handed_len * sizeof *route);
    uint64_t start = now();
    uint32_t refused = mittenschist_pair_loop(PAIR_LOOP);
#else
    memcpy(stops, handed, handed_len * sizeof *stops);
    uint64_t start = now();
    uint32_t refused = mittenschist_run_list_k_opt(RUN_LIST_K_OPT);
#endif
    *time += now() - start;
    taken(refused);
    return result[1];
}

static uint64_t run(uint64_t *time) {
    memcpy(stops, handed, handed_len * sizeof *stops);
    uint64_t start = now();
    uint32_t refused = mittenschist_run_list_k_opt(RUN_LIST_K_OPT);
    *time += now() - start;
    taken(refused);
    uint64_t examined = 0;
    for (size_t i = 0; i < lengths_len; i++) examined += result[4 * i + 1];
    return examined;
}

static uint64_t nearby(uint64_t *time) {
    uint64_t start = now();
    uint32_t refused = mittenschist_nearby_cuts(NEARBY_CUTS);
    *time += now() - start;
    taken(refused);
    return result[0];
}

#ifdef EVERY_NEARBY_CUTS
static uint64_t every(uint64_t *time) {
    uint64_t start = now();
    uint32_t refused = mittenschist_every_nearby_cuts(EVERY_NEARBY_CUTS);
    *time += now() - start;
    taken(refused);
    return result[0];
}
#endif

static uint64_t mixed(uint64_t sum, uint64_t value) {
    return (sum ^ value) * 1099511628211u;
}

/* One number for the reply: what is written of the result in every version, of polishing the five numbers before the late position; then
 * the stops or sets. Of the pair loop the counts of pairs, which a run has in the same places. */
static uint64_t reply(size_t places) {
    uint64_t sum = 14695981039346656037u;
    if (counts_only) return mixed(mixed(sum, result[1]), result[2]);
    for (size_t i = 0; i < places; i++) sum = mixed(sum, result[i]);
    for (size_t i = 0; i < route_len; i++) sum = mixed(sum, route[i]);
    for (size_t i = 0; i < stops_len; i++) sum = mixed(sum, stops[i]);
    for (size_t i = 0; i < sets_len; i++) sum = mixed(sum, sets[i]);
    return sum;
}

int main(void) {
    char word[16];
    uint64_t (*call)(uint64_t *) = NULL;
    size_t places = 0;
    while (scanf("%15s", word) == 1) {
        if (!strcmp(word, "turn")) {
            uint64_t least = number(), time = 0, counted = 0;
            if (!call) fail("a turn before a case");
            while ((counted < least || time < least_time) && time < most_time) {
                uint64_t once = call(&time);
                counted += once ? once : 1;
            }
            printf("%" PRIu64 " %" PRIu64 " %" PRIu64 "\n", time, counted, reply(places));
            fflush(stdout);
            continue;
        }
        free(legs), free(latest), free(service), free(route), free(stops), free(handed);
        free(lengths), free(depots), free(pins), free(distances), free(sets);
        legs = latest = service = route = stops = handed = depots = NULL;
        lengths = sets = NULL, pins = NULL, distances = NULL;
        route_len = stops_len = sets_len = 0;
        counts_only = 0;
        if (!strcmp(word, "polish")) read_polish(), call = polish, places = 5;
        else if (!strcmp(word, "pairs")) read_pairs(), call = pairs;
        else if (!strcmp(word, "run")) read_run(), call = run, places = 4 * lengths_len;
        else if (!strcmp(word, "nearby")) read_nearby(), call = nearby, places = 2;
#ifdef EVERY_NEARBY_CUTS
        else if (!strcmp(word, "every")) read_nearby(), call = every, places = 2;
#endif
        else fail("an unknown word");
    }
    return 0;
}

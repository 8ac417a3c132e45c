/* Mittenschist: a route polisher by k-opt in which every answer is proved. Link libmittenschist.a (`bash tools/build-archive` writes it).
 *
 * Every function returns 0, or the number of a refusal, but for mittenschist_which_of_two, which says of itself what it returns. It takes any numbers and any contents, judges them first, and then refuses or works;
 * every call ends. After a refusal all lent memory is as before. After 0, places beyond those that are said to be written are as before.
 * No pointer is kept, nothing is allocated, and there is no state between calls, so that calls may run on several threads at once. A
 * stack of 128 KiB suffices.
 *
 * A slice is a pointer and then a length, counted in elements, not bytes. A length of 0 may have a null pointer. Otherwise the pointer is
 * aligned for its type and has that many initialised elements; and slices that are written overlap no other slice of the call. These
 * two things cannot be seen from inside, and so cannot be refused.
 *
 * Words: a route or round has n stops, begins at a depot and ends there too, or, in the functions that take an end, in an end
 * harbour. Cut p lies before position p, so that cuts are 0 to n. k cuts make k + 1 segments, numbered from 0; a pattern says in which order they are put together, and which are reversed. There are 1, 7, 47,
 * 383 patterns for k = 2, 3, 4, 5, with indices from 0.
 */
#ifndef MITTENSCHIST_H
#define MITTENSCHIST_H

#include <stddef.h>
#include <stdint.h>

#ifdef __cplusplus
extern "C" {
#endif

/* Refusals, in the stated order: where several apply, the first of it is returned. With each function: those that it gives, in that order. */
enum {
    MITTENSCHIST_TEXT_FORM = 10,     /* a text that is not of the form, or longer than 60,000 bytes */
    MITTENSCHIST_CUT_COUNT = 1,      /* k outside 2 to 5 */
    MITTENSCHIST_ROW_COUNT = 26,     /* patterns outside 1 to 383, not the announced number, or orders not k + 1 for each mask */
    MITTENSCHIST_ROW_SHAPE = 27,     /* an order that is no permutation of 0 to k with 0 first and k last, or a mask with a bit outside 1 to k - 1 */
    MITTENSCHIST_ROW_REPEATED = 28,  /* a pattern that changes nothing, or that stands earlier in the list */
    MITTENSCHIST_TABLE_SIZE = 2,     /* locations outside 1 to 1,024; legs not locations x locations; latest not as many as locations */
    MITTENSCHIST_LONG_LEG = 3,       /* a leg above 1,000,000 seconds */
    MITTENSCHIST_SERVICE_LIST = 23,  /* service not as many as locations, or an entry above 1,000,000 seconds */
    MITTENSCHIST_UNKNOWN_STOP = 4,   /* a depot or stop not below the locations */
    MITTENSCHIST_UNKNOWN_END = 24,   /* an end harbour not below the locations */
    MITTENSCHIST_PAIRS = 29,         /* more than 64 pairs, a member without its partner or not below the locations, or a pair of equal members */
    MITTENSCHIST_ROUND_SIZE = 5,     /* more than 512 stops; more than 64 rounds; lists of rounds whose sizes disagree */
    MITTENSCHIST_PATTERN_INDEX = 6,  /* a pattern index not below the number of patterns for k */
    MITTENSCHIST_CUTS = 7,           /* not k cuts, a cut above n, or cuts that do not rise strictly */
    MITTENSCHIST_OTHER_ROUND = 8,    /* a cut that names another round */
    MITTENSCHIST_NEARBY_INPUT = 9,   /* m outside 1 to 512, neighbours above 32, distances not n x n, or an entry that is no number */
    MITTENSCHIST_MOVE_ROUNDS = 25,   /* the first move: rounds of other lengths, or longer than 48 stops */
    MITTENSCHIST_TEXT_BOUNDS = 31,   /* a problem to be written with more than 96 locations, an allowance above 4294967295 or a text longer than 60,000 bytes */
    MITTENSCHIST_ROOM = 21,          /* a lent result, list of sets, buffer or journal that is too short */
    MITTENSCHIST_JOURNAL_LENGTH = 22 /* undo: a journal not as long as the route */
};

/* ---- Polishing, the run, apply and undo ---- */

/* Polishes a route: cuts it at k places, puts it together by each pattern in turn, keeps the first result that is shorter and keeps every
 * deadline, and begins again; until none is left (finished) or `allowance` candidates have been examined (spent). With 0 for finished it
 * is proved that no choice of k cuts and no pattern gives a shorter route that keeps every deadline. That costs at least one whole pass,
 * patterns(k) x C(n + 1, k) candidates, and at most (1 + seconds saved) times as many. A small allowance only ends it sooner.
 *   legs    read     locations x locations seconds, row = from
 *   latest  read     for each location its latest second; 4294967295 where none is in force
 *   service read     for each location the seconds spent at a stop there, at most 1,000,000; 0 where none are. A stop is late if the legs up
 *                    to it plus the service of the stops before it exceed its latest: its own service does not count, nor the depot's at
 *                    the start, and each visit counts. Lengths are legs alone
 *   depot            a location
 *   route   written  the stops, at most 512, which may repeat and may be the depot; as before where nothing was accepted
 *   result  written  6 places: 0 finished or 1 spent, candidates examined, candidates accepted, length before, length after, and the lowest
 *                    position, from 0, whose stop is late in the route handed back, or the number of stops where none is late. A late
 *                    stop is told only where nothing was accepted
 * Refuses 1, 2, 3, 23, 4, 5, 21 (result under 6 places). */
uint32_t mittenschist_polish_route(size_t k, uint64_t allowance, size_t locations,
    const uint32_t *legs, size_t legs_len, const uint32_t *latest, size_t latest_len, const uint32_t *service, size_t service_len,
    uint32_t depot, uint32_t *route, size_t route_len, uint64_t *result, size_t result_len);

/* Polishes rounds one after the other under one allowance, whichever k. A round costs what polishing it costs, and a finished one is a route that
 * no choice of k cuts and no pattern makes shorter with every deadline kept. A spent round is put back as handed in, and the run stops.
 *   legs, latest, service  as above
 *   stops   written  the stops of all rounds, end to end; as before but for the rounds that changed
 *   lengths read     for each round the number of its stops
 *   depots  read     for each round its depot
 *   pins    read     for each round a byte: 0 free, else pinned
 *   result  written  4 places a round: state, candidates examined, candidates accepted, candidates applied. The state is 0 not reached,
 *                    1 pinned, 2 under 4 stops, 3 unchanged, 4 changed, 5 spent; applied is what was accepted in state 4, else 0
 * Every depot and every stop is judged, whichever round holds it. Refuses 1, 2, 3, 23, 4, 5, 21 (result under 4 places a round). */
uint32_t mittenschist_run_list_k_opt(size_t k, uint64_t allowance, size_t locations,
    const uint32_t *legs, size_t legs_len, const uint32_t *latest, size_t latest_len, const uint32_t *service, size_t service_len,
    uint32_t *stops, size_t stops_len, const size_t *lengths, size_t lengths_len,
    const uint32_t *depots, size_t depots_len, const uint8_t *pins, size_t pins_len,
    uint64_t *result, size_t result_len);

/* Applies a pattern at k cuts of round number `round`, whose stops are `route`. A cut is a round number and a position.
 *   cut_rounds     read     the round number of each cut
 *   cut_positions  read     the position of each cut
 *   route          written  at most 512 stops, any numbers
 *   journal        written  the old stops in its first n places
 * Refuses 1, 5, 6, 7 (also where the two lists are not equally long), 8, 21 (journal under n places). */
uint32_t mittenschist_k_opt_do_move(size_t k, size_t pattern, size_t round,
    const size_t *cut_rounds, size_t cut_rounds_len, const size_t *cut_positions, size_t cut_positions_len,
    uint32_t *route, size_t route_len, uint32_t *journal, size_t journal_len);

/* Puts the stops of a journal back. The journal must have n places: of a longer one, hand in the first n.
 *   route   written  at most 512 stops
 *   journal read
 * Refuses 5 (of the route alone), 22. */
uint32_t mittenschist_k_opt_undo_move(uint32_t *route, size_t route_len, const uint32_t *journal, size_t journal_len);

/* ---- To an end harbour ---- */

/* mittenschist_polish_route, of a route that ends in another harbour. Its length, before and after and of every candidate, is from the depot
 * to the first stop, from stop to stop, and from the last stop to the end harbour; of an empty route it is the one leg from depot to end.
 * With the depot as end the replies are those of mittenschist_polish_route.
 *   end              a location, which may be the depot or a stop; its deadline and its service play no part
 *   all others       as for it
 * Refuses 1, 2, 3, 23, 4, 24, 5, 21 (result under 6 places). */
uint32_t mittenschist_polish_route_to_end(size_t k, uint64_t allowance, size_t locations,
    const uint32_t *legs, size_t legs_len, const uint32_t *latest, size_t latest_len, const uint32_t *service, size_t service_len,
    uint32_t depot, uint32_t end, uint32_t *route, size_t route_len, uint64_t *result, size_t result_len);

/* mittenschist_run_list_k_opt, of rounds that end in other harbours.
 *   ends    read     for each round its end harbour
 *   all others       as for it
 * Every end is judged, whichever round has it; another number of ends than of rounds is 5. Refuses 1, 2, 3, 23, 4, 24, 5, 21 (result under 4
 * places a round). */
uint32_t mittenschist_run_list_k_opt_to_ends(size_t k, uint64_t allowance, size_t locations,
    const uint32_t *legs, size_t legs_len, const uint32_t *latest, size_t latest_len, const uint32_t *service, size_t service_len,
    uint32_t *stops, size_t stops_len, const size_t *lengths, size_t lengths_len,
    const uint32_t *depots, size_t depots_len, const uint32_t *ends, size_t ends_len, const uint8_t *pins, size_t pins_len,
    uint64_t *result, size_t result_len);

/* mittenschist_route_length, from the depot to an end harbour.
 *   legs, depot, end, route  read     as for polishing
 *   result                   written  1 place: the length
 * Refuses 2 (of locations and legs), 3, 4, 24, 5, 21. */
uint32_t mittenschist_route_length_to_end(size_t locations, const uint32_t *legs, size_t legs_len, uint32_t depot, uint32_t end,
    const uint32_t *route, size_t route_len, uint64_t *result, size_t result_len);

/* mittenschist_delta, to an end harbour.
 *   cuts, legs, depot, end, route  read
 *   result                         written  1 place: the difference
 * Refuses 1, 2 (of locations and legs), 3, 4, 24, 5, 6, 7, 21. */
uint32_t mittenschist_delta_to_end(size_t k, size_t pattern, const size_t *cuts, size_t cuts_len,
    size_t locations, const uint32_t *legs, size_t legs_len, uint32_t depot, uint32_t end,
    const uint32_t *route, size_t route_len, int64_t *result, size_t result_len);

/* ---- A problem as text ---- */

/* Writes a problem as text: the lines `k=`, `allowance=`, `locations=`, `depot=`, `end=`, a line `legs=` for each location, `latest=`, `service=` and `round=`,
 * numbers with commas between them; each line ends with a line feed. Pairs and lists of patterns are not part of a problem. What is written is read back as the same problem,
 * and no other problem has the same text.
 *   k, allowance, legs, latest, service, depot, end, route  read  as for polishing; at most 96 locations and an allowance of 4294967295
 *   text    written  the bytes; 60,000 suffice for every problem
 *   result  written  1 place: how many bytes
 * How many there are is known before the first is written. Refuses 1, 2, 3, 23, 4, 24, 5, 31, 21 (text under so many bytes, or result under 1 place). */
uint32_t mittenschist_write_problem(size_t k, uint64_t allowance, size_t locations, const uint32_t *legs, size_t legs_len,
    const uint32_t *latest, size_t latest_len, const uint32_t *service, size_t service_len, uint32_t depot, uint32_t end,
    const uint32_t *route, size_t route_len, uint8_t *text, size_t text_len, uint64_t *result, size_t result_len);

/* Reads a problem from a text of that form. Written again it is the same bytes. It is judged as polishing judges it, so that polishing takes every problem that is read.
 *   text    read     at most 60,000 bytes
 *   legs    written  locations x locations entries; 9,216 suffice for every text
 *   latest  written  an entry for each location; 96 suffice
 *   service written  an entry for each location; 96 suffice
 *   route   written  the stops; 512 suffice
 *   result  written  6 places: k, allowance, locations, depot, end, number of stops
 * Nothing is written before the whole text is judged. Refuses 10, 1, 3, 23, 4, 24, 5, 21 (a list under as many places as the text has entries for it, or result under 6 places). */
uint32_t mittenschist_read_problem(const uint8_t *text, size_t text_len, uint32_t *legs, size_t legs_len, uint32_t *latest, size_t latest_len,
    uint32_t *service, size_t service_len, uint32_t *route, size_t route_len, uint64_t *result, size_t result_len);

/* ---- Own lists of patterns ---- */

/* Reads a list of patterns from a text: the lines `k=`, `patterns=` with the number of rows, and for each row a line `pattern=` with the digits of its
 * order, a comma and its mask; each line ends with a line feed.
 *   text    read     at most 60,000 bytes
 *   orders  written  k + 1 bytes a row, end to end: segment numbers in their order. 2,298 bytes suffice for every list
 *   masks   written  a byte a row, of which bit i reverses segment i. 383 bytes suffice
 *   result  written  2 places: k, then the number of rows
 * The whole list is judged before anything is written. Refuses 10, 1, 26, 27, 28, 21 (orders under (k + 1) bytes a row, masks under a byte a row, or
 * result under 2 places). */
uint32_t mittenschist_load_patterns(const uint8_t *text, size_t text_len, uint8_t *orders, size_t orders_len, uint8_t *masks, size_t masks_len,
    uint64_t *result, size_t result_len);

/* mittenschist_polish_route_to_end with a list of patterns in place of all of them: its rows are tried in their order on each cut set, and finished means that no
 * choice of k cuts and no row of the list gives a shorter route that keeps every deadline. The list of all patterns by index gives
 * the replies of mittenschist_polish_route_to_end.
 *   orders  read     k + 1 bytes a row, end to end
 *   masks   read     a byte for each row; 1 to 383 rows
 *   all others       as for it; the list is judged anew in each call
 * Refuses 1, 26, 27, 28, 2, 3, 23, 4, 24, 5, 21 (result under 6 places). */
uint32_t mittenschist_polish_with_patterns(size_t k, const uint8_t *orders, size_t orders_len, const uint8_t *masks, size_t masks_len,
    uint64_t allowance, size_t locations,
    const uint32_t *legs, size_t legs_len, const uint32_t *latest, size_t latest_len, const uint32_t *service, size_t service_len,
    uint32_t depot, uint32_t end, uint32_t *route, size_t route_len, uint64_t *result, size_t result_len);

/* ---- With pairs: what comes before what ---- */

/* mittenschist_polish_route_to_end, of a route that is to keep pairs of locations: in each pair every visit of the first comes before every visit of the
 * second. A pair of which a member is not visited is kept; the depot at the start and the end harbour are no visits. A result is kept only if it is
 * shorter and keeps every deadline and every pair, and finished means that no choice of k cuts and no pattern gives one. A route that does not keep its
 * pairs as it is handed in is polished all the same; the late position speaks of deadlines alone. With no pairs the replies are those of
 * mittenschist_polish_route_to_end.
 *   pairs   read     the members end to end: first, second, first, second; at most 64 pairs, which may repeat or contradict each other
 *   all others       as for it
 * Refuses 1, 2, 3, 23, 4, 24, 29, 5, 21 (result under 6 places). */
uint32_t mittenschist_polish_route_with_pairs(size_t k, uint64_t allowance, size_t locations,
    const uint32_t *legs, size_t legs_len, const uint32_t *latest, size_t latest_len, const uint32_t *service, size_t service_len,
    uint32_t depot, uint32_t end, const uint32_t *pairs, size_t pairs_len, uint32_t *route, size_t route_len,
    uint64_t *result, size_t result_len);

/* mittenschist_polish_route_with_pairs in slices, so that a call comes back soon: the scan from a place on. A place is k cuts and the index of a pattern,
 * the next candidate to be examined: 0 to k - 1 and 0 to begin. Hand back the place and the route that were handed out, and the replies add up to those of
 * one call with the sum of the allowances: the route, the ending, and the sums of examined and of accepted. Finished then says of the route what it says of
 * one call's. From a place to which no slice led, finished says nothing of the candidates before the place where nothing was accepted.
 *   place   read and written   k + 1 places: the cuts, the index. Then: spent, the place of the next candidate; finished, the first place again
 *   result  written            as for it, of this slice
 *   all others                 as for it
 * With k above the number of stops + 1 it is finished at once, whatever the place holds. Each slice judges its tables and measures its route anew, some
 * 0.05 ms at 512 stops: in slices of a few milliseconds that does not show.
 * Refuses 1, 2, 3, 23, 4, 24, 29, 5, 6 (no such index), 7 (no such cuts), 21 (place under k + 1 places or result under 6). */
uint32_t mittenschist_polish_slice(size_t k, uint64_t allowance, size_t locations,
    const uint32_t *legs, size_t legs_len, const uint32_t *latest, size_t latest_len, const uint32_t *service, size_t service_len,
    uint32_t depot, uint32_t end, const uint32_t *pairs, size_t pairs_len, uint32_t *route, size_t route_len,
    uint64_t *place, size_t place_len, uint64_t *result, size_t result_len);

/* mittenschist_polish_with_patterns, with pairs as above.
 *   pairs   read     as above
 *   all others       as for it
 * Refuses 1, 26, 27, 28, 2, 3, 23, 4, 24, 29, 5, 21 (result under 6 places). */
uint32_t mittenschist_polish_with_patterns_and_pairs(size_t k, const uint8_t *orders, size_t orders_len, const uint8_t *masks, size_t masks_len,
    uint64_t allowance, size_t locations,
    const uint32_t *legs, size_t legs_len, const uint32_t *latest, size_t latest_len, const uint32_t *service, size_t service_len,
    uint32_t depot, uint32_t end, const uint32_t *pairs, size_t pairs_len, uint32_t *route, size_t route_len,
    uint64_t *result, size_t result_len);

/* mittenschist_run_list_k_opt_to_ends, of rounds that are to keep pairs.
 *   pairs   read     as above; one list for all rounds
 *   all others       as for it
 * Refuses 1, 2, 3, 23, 4, 24, 29, 5, 21 (result under 4 places a round). */
uint32_t mittenschist_run_list_k_opt_with_pairs(size_t k, uint64_t allowance, size_t locations,
    const uint32_t *legs, size_t legs_len, const uint32_t *latest, size_t latest_len, const uint32_t *service, size_t service_len,
    uint32_t *stops, size_t stops_len, const size_t *lengths, size_t lengths_len,
    const uint32_t *depots, size_t depots_len, const uint32_t *ends, size_t ends_len, const uint8_t *pins, size_t pins_len,
    const uint32_t *pairs, size_t pairs_len, uint64_t *result, size_t result_len);

/* ---- Shares of the allowance ---- */

/* mittenschist_run_list_k_opt_with_pairs, where no round can eat what the others wait for. Of the rounds that are free and of 4 stops or more each is given a share: the
 * allowance divided by their number, rounded down, and the first of them the remainder too; and beside it what those before it left over. So no round
 * examines more than it is given, together they examine at most the allowance, and each examines its share or as many as it takes to finish.
 * A spent round keeps what was accepted, which is shorter and keeps every deadline and every pair, and the next one still starts.
 *   result  written  4 places a round, as for the run, but that no state is 0 and that applied is what was accepted in state 5 too
 *   all others       as for it
 * Refuses 1, 2, 3, 23, 4, 24, 29, 5, 21 (result under 4 places a round). */
uint32_t mittenschist_run_in_shares(size_t k, uint64_t allowance, size_t locations,
    const uint32_t *legs, size_t legs_len, const uint32_t *latest, size_t latest_len, const uint32_t *service, size_t service_len,
    uint32_t *stops, size_t stops_len, const size_t *lengths, size_t lengths_len,
    const uint32_t *depots, size_t depots_len, const uint32_t *ends, size_t ends_len, const uint8_t *pins, size_t pins_len,
    const uint32_t *pairs, size_t pairs_len, uint64_t *result, size_t result_len);

/* ---- Which of two lists ---- */

/* Two desks each hand in a list for one boat: which of them to take. The shorter, from the depot to the end harbour, of those that keep every deadline
 * and every pair; the first where both keep them and are equally long; the one that keeps them where only one does. The lists may have different stops.
 *   legs, latest, service, depot, end, pairs  read     as for polishing with pairs
 *   first, second                             read     the stops of each list, at most 512; they may be one and the same slice
 * Returns 1 for the first, 2 for the second, 0 for neither; never the number of a refusal: where polishing would refuse the tables, depot, end, pairs or
 * either list, whichever number that has, it is 0. */
uint32_t mittenschist_which_of_two(size_t locations,
    const uint32_t *legs, size_t legs_len, const uint32_t *latest, size_t latest_len, const uint32_t *service, size_t service_len,
    uint32_t depot, uint32_t end, const uint32_t *pairs, size_t pairs_len, const uint32_t *first, size_t first_len,
    const uint32_t *second, size_t second_len);

/* ---- The others ---- */

/* The pair loop, which a run took for k = 2 in former versions; for boards that rely on its orders. For i from 0 to n - 2 and j from i + 1 to
 * n - 1 it reverses the stops i to j where that shortens the two legs at their ends and keeps every deadline; passes over all pairs repeat until one
 * accepts nothing (finished) or `allowance` pairs have been examined (spent). A spent route keeps what was accepted. The stop at i is read
 * once for all j, and the legs inside are not looked at: so the route can end longer than it began, it need not be one that no two cuts
 * improve, and only the allowance is promised to end it. Hand in a few dozen passes of n (n - 1) / 2 pairs, never the largest number.
 *   legs, latest, service  read     as for polishing
 *   depot, route                    as for polishing
 *   result                 written  6 places, as for polishing, with pairs for candidates; the length after may be above the length before
 * Refuses 2, 3, 23, 4, 5, 21 (result under 6 places). */
uint32_t mittenschist_pair_loop(uint64_t allowance, size_t locations,
    const uint32_t *legs, size_t legs_len, const uint32_t *latest, size_t latest_len, const uint32_t *service, size_t service_len,
    uint32_t depot, uint32_t *route, size_t route_len, uint64_t *result, size_t result_len);

/* Whether the cuts suit a round of n stops: k of them, none above n, rising. It passes unordered cuts if one names another round.
 *   cut_rounds, cut_positions  read     as for do_move; lists that are not equally long are answered with no
 *   result                     written  1 place: 1 yes or 0 no
 * Refuses 1, 5, 6, 21. */
uint32_t mittenschist_k_opt_is_doable(size_t k, size_t pattern, size_t round, size_t n,
    const size_t *cut_rounds, size_t cut_rounds_len, const size_t *cut_positions, size_t cut_positions_len,
    uint64_t *result, size_t result_len);

/* The first move that turns one round into another: cut sets in dictionary order, the patterns of each by index. Rounds are compared by their stops,
 * whatever the numbers; depot, legs and deadlines play no part. Two equal rounds are no special case.
 *   old, wanted  read     rounds of the same length, at most 48 stops
 *   result       written  k + 2 places: 1, the index of the pattern, then the k cuts. Where no cut set and pattern do it: its first place
 *                         alone, 0
 * Refuses 1, 5 (either above 512 stops), 25 (other lengths, or above 48), 21 (result under k + 2 places, also where there is no move). */
uint32_t mittenschist_find_move(size_t k, const uint32_t *old, size_t old_len, const uint32_t *wanted, size_t wanted_len,
    uint64_t *result, size_t result_len);

/* Lists cut sets by nearness, k places each, until no whole set fits any more.
 *   n                        positions, at most 512
 *   distances       read     n x n, row = from; infinities are numbers
 *   min_segment_len          stops in the shortest segment, 1 to 512
 *   max_nearby               how many of the nearest positions are tried from a cut, 0 to 32
 *   sets            written  the sets, end to end
 *   result          written  2 places: sets written, then 0 ended or 1 more
 * Refuses 1, 5, 9, 21 (sets under k places, also where there is no set; result under 2). */
uint32_t mittenschist_nearby_cuts(size_t n, const double *distances, size_t distances_len, size_t k,
    size_t min_segment_len, size_t max_nearby, size_t *sets, size_t sets_len, uint64_t *result, size_t result_len);

/* Lists every nearby cut set, also those that the listing above misses where it drops a cut, each once: sets with a lower first cut first,
 * then by rank in the neighbour lists, cut by cut. With two cuts it is the listing above.
 *   n .. result              as for the listing above
 * Refuses 1, 5, 9, 21 (sets under k places, also where there is no set; result under 2). */
uint32_t mittenschist_every_nearby_cuts(size_t n, const double *distances, size_t distances_len, size_t k,
    size_t min_segment_len, size_t max_nearby, size_t *sets, size_t sets_len, uint64_t *result, size_t result_len);

/* The pattern with an index.
 *   result  written  k + 2 places: k + 1 segment numbers in their order, then the mask, of which bit i reverses segment i
 * Refuses 1, 6, 21. */
uint32_t mittenschist_reconnection_at(size_t k, size_t pattern, uint64_t *result, size_t result_len);

/* Moves k cuts of a route of n stops on to the next set. The first is 0, 1 .. k - 1; they follow in dictionary order.
 *   cuts    written  k cuts; as before where there is no next set
 *   result  written  1 place: 1 moved, or 0 the last
 * Refuses 1, 5, 7, 21. */
uint32_t mittenschist_next_cut_set(size_t k, size_t n, size_t *cuts, size_t cuts_len, uint64_t *result, size_t result_len);

/* The route after a move.
 *   cuts   read     k cuts
 *   route  read     at most 512 stops, any numbers
 *   out    written  its first n places
 * Refuses 1, 5, 6, 7, 21 (out under n places). */
uint32_t mittenschist_reconnect(size_t k, size_t pattern, const size_t *cuts, size_t cuts_len,
    const uint32_t *route, size_t route_len, uint32_t *out, size_t out_len);

/* The way back of a move of a route of n stops, as a move: applied after it, it restores every route of n stops. Its first and last cut are
 * the move's, and it reverses a segment exactly if that arrived reversed; the way back of the way back is the move. The index is always that
 * of the built-in patterns.
 *   cuts    read     k cuts
 *   result  written  k + 1 places: the index of its pattern, then its k cuts
 * Refuses 1, 5, 6, 7, 21 (result under k + 1 places). */
uint32_t mittenschist_way_back(size_t k, size_t pattern, size_t n, const size_t *cuts, size_t cuts_len,
    uint64_t *result, size_t result_len);

/* The length of a route in seconds, from the depot back to it.
 *   legs, depot, route  read     as for polishing
 *   result              written  1 place: the length
 * Refuses 2 (of locations and legs), 3, 4, 5, 21. */
uint32_t mittenschist_route_length(size_t locations, const uint32_t *legs, size_t legs_len, uint32_t depot,
    const uint32_t *route, size_t route_len, uint64_t *result, size_t result_len);

/* The length of a route after a move minus its length before.
 *   cuts, legs, depot, route  read
 *   result                    written  1 place: the difference
 * Refuses 1, 2 (of locations and legs), 3, 4, 5, 6, 7, 21. */
uint32_t mittenschist_delta(size_t k, size_t pattern, const size_t *cuts, size_t cuts_len,
    size_t locations, const uint32_t *legs, size_t legs_len, uint32_t depot,
    const uint32_t *route, size_t route_len, int64_t *result, size_t result_len);

/* Whether a route keeps every deadline.
 *   legs, latest, service, depot, route  read     as for polishing
 *   result                               written  1 place: the lowest position, from 0, whose stop is late, or n where none is late
 * Refuses 2, 3, 23, 4, 5, 21. */
uint32_t mittenschist_route_feasible(size_t locations, const uint32_t *legs, size_t legs_len, const uint32_t *latest, size_t latest_len,
    const uint32_t *service, size_t service_len, uint32_t depot, const uint32_t *route, size_t route_len, uint64_t *result, size_t result_len);

#ifdef __cplusplus
}
#endif

#endif

/*
 * Tivelgor for C and C++ hosts: the tablet's entry, which is in libtablet.a, and the desk's, which are in libdesk.a.
 * The archives are for x86-64 Linux, and both may go into one program. From outside, libtablet.a needs memset alone,
 * and libdesk.a memcpy and memset.
 *
 * docs/RULES.md has the rules; a number such as 4.2 is that of a paragraph there.
 *
 * Every function takes parts of memory as a pointer and a number of elements. No pointer may be NULL, not even with 0
 * elements, and each must be aligned for its elements. Beware of an empty std::vector, whose data() may be NULL: pass
 * the address of any object of the element type instead, and 0 elements, or give each vector a place more than it
 * needs. A part that is written may overlap no other; parts that are only read may overlap each other. Nothing outside
 * the parts is read or written, and there is no input of any length or content that makes a call fail otherwise than
 * by its result. A call takes under 16 KiB of stack.
 *
 * Nothing is kept after a call, and there is no static data. So calls may run side by side in any number of threads,
 * even on the same records, as long as each has parts of its own to write to.
 *
 * A result below 2^63 is what was asked for. A refusal is 2^63 + 65,536 * place + number (4.11); the tablet's is
 * 2^63 + number, without the place (4.10). Where several apply, the first is given in the order in which they are
 * listed below, and at the lowest place (4.1). The numbers 1 to 6 refuse the network record (4.2), 11 to 17 the
 * request record (4.3), 81 and 82 the numbers of which a record is to be made, and 83 its room (4.12). The place is the
 * number of the bad link for 6, that of the bad node for 16 (0 source, 1 target, 2 + j rider j), that of the bad weight
 * for 17 (0 bus, 1 + j rider j), and 0 where none is named. A refusal leaves every part as it was, except 24 (4.8).
 *
 * Records are made by the two functions that write them, and can be taken apart by hand: 1.2 and 1.5 say where each
 * number stands.
 */
#ifndef TIVELGOR_H
#define TIVELGOR_H

#include <stddef.h>
#include <stdint.h>

/*
 * The macros below evaluate each of their arguments once. An answer is what a function gave, a uint64_t.
 */

/* Whether an answer is a refusal, the tablet's too. */
#define TIVELGOR_REFUSED(answer) (((uint64_t)(answer) >> 63) != 0)

/* A refusal's number, the tablet's too, as an unsigned; and its place, as a uint64_t. */
#define TIVELGOR_NUMBER(answer) ((unsigned)((uint64_t)(answer) % 65536))
#define TIVELGOR_PLACE(answer) ((uint64_t)(answer) % ((uint64_t)1 << 63) / 65536)

/* The number of the search's refusal that means: there is no plan (4.4). */
#define TIVELGOR_NO_PLAN 24

/* n and m, of what tivelgor_network gave if that is no refusal; both are unsigned. */
#define TIVELGOR_NODES(answer) ((unsigned)((uint64_t)(answer) / 65536))
#define TIVELGOR_LINKS(answer) ((unsigned)((uint64_t)(answer) % 65536))

/*
 * The cost, a uint64_t, and the number of steps, an unsigned: of what tivelgor_search gave if that is no refusal, or of
 * a place of its table that is not TIVELGOR_NO_FINISH.
 */
#define TIVELGOR_COST(answer) ((uint64_t)(answer) / 4096)
#define TIVELGOR_STEPS(answer) ((unsigned)((uint64_t)(answer) % 4096))

/* Where there is no walk (2.3), and where the table has no finish (3.3). */
#define TIVELGOR_NO_DISTANCE 4294967295u
#define TIVELGOR_NO_FINISH 18446744073709551615u

/* The cost in a network record that closes a link to the bus or to walkers (1.4). */
#define TIVELGOR_CLOSED 65535

/* A step below TIVELGOR_FIRST_DRIVE is the rider who is met; any other drives a link, an unsigned (2.8). */
#define TIVELGOR_FIRST_DRIVE 8
#define TIVELGOR_IS_DRIVE(step) ((unsigned)(step) >= TIVELGOR_FIRST_DRIVE)
#define TIVELGOR_DRIVE_LINK(step) ((unsigned)(step) - TIVELGOR_FIRST_DRIVE)

/* The limits of records and routes (1.3, 1.6, 4.5), and the lengths of the longest records, in bytes (1.2, 1.5). */
#define TIVELGOR_MOST_NODES 512
#define TIVELGOR_MOST_LINKS 2048
#define TIVELGOR_MOST_RIDERS 7
#define TIVELGOR_MOST_ROUTE 4095
#define TIVELGOR_LONGEST_NETWORK 16393
#define TIVELGOR_LONGEST_REQUEST 30

/* The lengths of a network record of m links (1.2) and of a request record of l riders (1.5), each as a size_t. */
#define TIVELGOR_NETWORK_LENGTH(m) (9 + 8 * (size_t)(m))
#define TIVELGOR_REQUEST_LENGTH(l) (9 + 3 * (size_t)(l))

/* How many numbers make a link: from, to, drive and walk, in that order (1.11). */
#define TIVELGOR_LINK_NUMBERS 4

/* How many numbers make a request, and at which place of them each stands (4.13); j is a rider, 0 to 6. */
#define TIVELGOR_REQUEST_NUMBERS 18
#define TIVELGOR_AT_SOURCE 0
#define TIVELGOR_AT_TARGET 1
#define TIVELGOR_AT_BUS_WEIGHT 2
#define TIVELGOR_AT_RIDERS 3
#define TIVELGOR_AT_NODE(j) (4 + (size_t)(j))
#define TIVELGOR_AT_WEIGHT(j) (11 + (size_t)(j))

/*
 * The places that a search in n nodes, at least 1, for l riders, at most 7, needs in its rooms (4.4), each as a size_t.
 * Of steps it is l + (l + 1) * (n - 1), written so that l is evaluated once.
 */
#define TIVELGOR_NEED_DISTANCES(n, l) ((size_t)(l) * (size_t)(n))
#define TIVELGOR_NEED_TABLE(n, l) ((size_t)(n) << (l))
#define TIVELGOR_NEED_STEPS(n, l) (((size_t)(l) + 1) * (size_t)(n) - 1)

/* The places that suffice for every search. */
#define TIVELGOR_MOST_DISTANCES 3584
#define TIVELGOR_MOST_TABLE 65536
#define TIVELGOR_MOST_STEPS 4095

#ifdef __cplusplus
extern "C" {
#endif

/*
 * The tablet: prices a route (2.6).
 *
 *   network, request  the two records, as bytes
 *   route             the route's link numbers, two bytes each, high byte first
 *
 * Gives the price, which is below 2^63; or, if anything is wrong with the records or the route, 2^63 plus the number
 * of the refusal: 1 to 6 for the network, 11 to 17 for the request, 38 for an odd number of route bytes (4.6), 32 for
 * more than 4,095 links, 33 to 35 for a link that does not exist, is closed to the bus or does not start where the
 * route stands (the lowest such link of the route), 36 for a route that does not end at the target, 37 for a rider
 * who can walk to no position of it (4.5).
 */
uint64_t tivelgor_tablet_price(const uint8_t *network, size_t network_length,
                               const uint8_t *request, size_t request_length,
                               const uint8_t *route, size_t route_length);

/*
 * The desk: the functions below, which are in a library of their own. They speak of n nodes and m links, which the
 * network states, and of l riders, which the request states.
 */

/*
 * Reads a network record (1.2).
 *
 *   network  the record, as bytes
 *
 * Gives 65,536 * n + m (TIVELGOR_NODES, TIVELGOR_LINKS), or a refusal 1 to 6.
 */
uint64_t tivelgor_network(const uint8_t *network, size_t network_length);

/*
 * Reads a request record for a network (1.5).
 *
 *   network, request  the two records, as bytes
 *
 * Gives l, or a refusal 1 to 6 or 11 to 17.
 */
uint64_t tivelgor_request(const uint8_t *network, size_t network_length,
                          const uint8_t *request, size_t request_length);

/*
 * Finds the walking distances from a node (2.3). Every link that is open to walkers is walked either way (2.1).
 *
 *   network    the record, as bytes
 *   start      the node
 *   distances  needs n places: place v becomes the distance from start to v, or TIVELGOR_NO_DISTANCE
 *
 * Gives 0; or a refusal 1 to 6, 41 for a start of n or more, 42 for fewer than n places (4.7). Later places keep
 * their values (3.5).
 */
uint64_t tivelgor_walk(const uint8_t *network, size_t network_length,
                       size_t start,
                       uint32_t *distances, size_t distances_length);

/*
 * Prices a route (2.6).
 *
 *   network, request  the two records, as bytes
 *   route             the route's link numbers
 *   meeting           needs l places: place j becomes the position of the route (0 the source, i + 1 behind its link i)
 *                     where rider j is met, the earliest of those to which the walk is shortest (2.7)
 *
 * Gives the price; or a refusal 1 to 6 or 11 to 17, 31 for fewer than l places, or 32 to 37 as on the tablet, at the
 * link's index in the route for 33 to 35 and at the rider for 37 (4.5). Later places keep their values (3.5).
 */
uint64_t tivelgor_price(const uint8_t *network, size_t network_length,
                        const uint8_t *request, size_t request_length,
                        const uint16_t *route, size_t route_length,
                        uint16_t *meeting, size_t meeting_length);

/*
 * Finds the right plan: of least cost, then of fewest steps, then first in the dictionary order of its steps (2.10).
 *
 *   network, request  the two records, as bytes
 *   distances         needs l * n places (TIVELGOR_NEED_DISTANCES): place j * n + v becomes rider j's walking distance
 *                     to v, or TIVELGOR_NO_DISTANCE (3.2)
 *   table             needs 2^l * n places (TIVELGOR_NEED_TABLE): place R * n + v becomes 4,096 * cost + steps of the
 *                     best finish from v that meets the riders whose bits R has, or TIVELGOR_NO_FINISH (3.3)
 *   steps             needs l + (l + 1) * (n - 1) places (TIVELGOR_NEED_STEPS): the plan's steps are put at its start,
 *                     j below 8 for "rider j is met here" and 8 + k for "drive link k" (2.8)
 *
 * Gives 4,096 * cost + the number of steps (TIVELGOR_COST, TIVELGOR_STEPS); or a refusal 1 to 6 or 11 to 17, 21, 22
 * or 23 for too few places for distances, table or steps, or 24 if there is no plan (4.4). 24 leaves distances and
 * table filled, and steps as it was. Later places keep their values (3.5).
 */
uint64_t tivelgor_search(const uint8_t *network, size_t network_length,
                         const uint8_t *request, size_t request_length,
                         uint32_t *distances, size_t distances_length,
                         uint64_t *table, size_t table_length,
                         uint16_t *steps, size_t steps_length);

/*
 * Writes a network record (1.11).
 *
 *   n      the number of nodes
 *   links  four numbers for each link, in the order of the links: from, to, drive and walk, where TIVELGOR_CLOSED as a
 *          cost closes the link to that use (1.4); so links_length is 4 * m (TIVELGOR_LINK_NUMBERS)
 *   room   needs 9 + 8 * m places (TIVELGOR_NETWORK_LENGTH): the record is put at its start
 *
 * Gives the record's length; or a refusal, 81 for an n of 0 or over 512, a links_length that is no multiple of 4, or
 * more than 2,048 links, 82 for a link from or to a node of n or more, 83 for too small a room (4.12). Later bytes of
 * the room keep their values. tivelgor_network accepts the record (1.12).
 */
uint64_t tivelgor_write_network(size_t n,
                                const uint16_t *links, size_t links_length,
                                uint8_t *room, size_t room_length);

/*
 * Writes a request record for networks of n nodes (1.11).
 *
 *   n        the number of nodes; with TIVELGOR_MOST_NODES, any node that a network can have may be named
 *   request  18 numbers (4.13), each at its place: source, target, bus weight and the number of riders
 *            (TIVELGOR_AT_SOURCE, TIVELGOR_AT_TARGET, TIVELGOR_AT_BUS_WEIGHT, TIVELGOR_AT_RIDERS), then the node where
 *            rider j waits (TIVELGOR_AT_NODE) and the weight of rider j (TIVELGOR_AT_WEIGHT), 0 where there is no
 *            rider j; so request_length is 18 (TIVELGOR_REQUEST_NUMBERS)
 *   room     needs 9 + 3 * l places (TIVELGOR_REQUEST_LENGTH): the record is put at its start
 *
 * Gives the record's length; or a refusal, 81 for an n of 0 or over 512, a request_length other than 18, more than 7
 * riders, a weight of 0 or over 100, or a node or weight other than 0 where there is no rider, 82 for a node of n or
 * more, 83 for too small a room (4.12). Later bytes of the room keep their values. tivelgor_request accepts the record
 * beside any network of n nodes (1.12).
 */
uint64_t tivelgor_write_request(size_t n,
                                const uint64_t *request, size_t request_length,
                                uint8_t *room, size_t room_length);

#ifdef __cplusplus
}
#endif

#endif

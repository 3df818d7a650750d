/* What the header's macros make of answers and sizes, checked when this is compiled: a wrong one makes an array of -1. */
#include "tivelgor.h"

#define HOLDS(name, claim) typedef char name[(claim) ? 1 : -1]

/* Refusal 34 at place 3, the tablet's 34, and values. */
#define REFUSAL (((uint64_t)1 << 63) + 65536 * 3 + 34)
#define TABLET_REFUSAL (((uint64_t)1 << 63) + 34)

HOLDS(refused, TIVELGOR_REFUSED(REFUSAL) && TIVELGOR_REFUSED(TABLET_REFUSAL));
HOLDS(number, TIVELGOR_NUMBER(REFUSAL) == 34 && TIVELGOR_NUMBER(TABLET_REFUSAL) == 34);
HOLDS(place, TIVELGOR_PLACE(REFUSAL) == 3 && TIVELGOR_PLACE(TABLET_REFUSAL) == 0);
HOLDS(value, !TIVELGOR_REFUSED(0) && !TIVELGOR_REFUSED(((uint64_t)1 << 63) - 1));
HOLDS(sizes, TIVELGOR_NODES(512 * 65536 + 2048) == 512 && TIVELGOR_LINKS(512 * 65536 + 2048) == 2048);
HOLDS(dearest, TIVELGOR_COST((uint64_t)50231811000 * 4096 + 4095) == 50231811000);
HOLDS(longest, TIVELGOR_STEPS((uint64_t)50231811000 * 4096 + 4095) == 4095);

HOLDS(no_distance, TIVELGOR_NO_DISTANCE == (uint32_t)-1);
HOLDS(no_finish, TIVELGOR_NO_FINISH == (uint64_t)-1);
HOLDS(closed, TIVELGOR_CLOSED == (uint16_t)-1);
HOLDS(drive, TIVELGOR_IS_DRIVE(8) && !TIVELGOR_IS_DRIVE(7) && TIVELGOR_DRIVE_LINK(8 + 2047) == 2047);

/* One node without a rider, the small town with one and with two, and the most of both. */
HOLDS(distances, TIVELGOR_NEED_DISTANCES(1, 0) == 0 && TIVELGOR_NEED_DISTANCES(5, 1) == 5);
HOLDS(table, TIVELGOR_NEED_TABLE(1, 0) == 1 && TIVELGOR_NEED_TABLE(5, 2) == 20);
HOLDS(steps, TIVELGOR_NEED_STEPS(1, 0) == 0 && TIVELGOR_NEED_STEPS(5, 1) == 9 && TIVELGOR_NEED_STEPS(5, 2) == 14);
HOLDS(most_nodes, TIVELGOR_MOST_NODES == 512);
HOLDS(most_links, TIVELGOR_MOST_LINKS == 2048);
HOLDS(most_riders, TIVELGOR_MOST_RIDERS == 7);
HOLDS(most_route, TIVELGOR_MOST_ROUTE == 4095);
HOLDS(most_distances, TIVELGOR_NEED_DISTANCES(512, 7) == TIVELGOR_MOST_DISTANCES);
HOLDS(most_table, TIVELGOR_NEED_TABLE(512, 7) == TIVELGOR_MOST_TABLE);
HOLDS(most_steps, TIVELGOR_NEED_STEPS(512, 7) == TIVELGOR_MOST_STEPS);
HOLDS(longest_network, TIVELGOR_LONGEST_NETWORK == 9 + 8 * TIVELGOR_MOST_LINKS);
HOLDS(longest_request, TIVELGOR_LONGEST_REQUEST == 9 + 3 * TIVELGOR_MOST_RIDERS);

/* No link and no rider, the small town and case A, and the most of both. */
HOLDS(network_length, TIVELGOR_NETWORK_LENGTH(0) == 9 && TIVELGOR_NETWORK_LENGTH(8) == 73);
HOLDS(request_length, TIVELGOR_REQUEST_LENGTH(0) == 9 && TIVELGOR_REQUEST_LENGTH(1) == 12);
HOLDS(most_network, TIVELGOR_NETWORK_LENGTH(TIVELGOR_MOST_LINKS) == TIVELGOR_LONGEST_NETWORK);
HOLDS(most_request, TIVELGOR_REQUEST_LENGTH(TIVELGOR_MOST_RIDERS) == TIVELGOR_LONGEST_REQUEST);
HOLDS(link_numbers, TIVELGOR_LINK_NUMBERS == 4);

/* The places of a request's numbers lie one behind the other, and the last weight is the last of them. */
HOLDS(request_head, TIVELGOR_AT_SOURCE == 0 && TIVELGOR_AT_TARGET == 1 && TIVELGOR_AT_BUS_WEIGHT == 2);
HOLDS(request_riders, TIVELGOR_AT_RIDERS == 3);
HOLDS(request_nodes, TIVELGOR_AT_NODE(0) == 4 && TIVELGOR_AT_NODE(TIVELGOR_MOST_RIDERS - 1) == 10);
HOLDS(request_weights, TIVELGOR_AT_WEIGHT(0) == 11 && TIVELGOR_AT_WEIGHT(TIVELGOR_MOST_RIDERS - 1) == 17);
HOLDS(request_numbers, TIVELGOR_REQUEST_NUMBERS == 18);

/* Writes, reads, walks, prices and plans in the depot's small town, as a host program at a desk does. */
#include <stdio.h>

#include "tivelgor.h"

/* The nodes and links of the town and the riders of the request, and the room that a search for them needs. */
enum {
    nodes = 5,
    links = 8,
    riders = 1,
    distance_places = TIVELGOR_NEED_DISTANCES(nodes, riders),
    table_places = TIVELGOR_NEED_TABLE(nodes, riders),
    step_places = TIVELGOR_NEED_STEPS(nodes, riders)
};

/* Each link of the town: from, to, drive, walk. */
static const uint16_t streets[links * TIVELGOR_LINK_NUMBERS] = {
    0, 1, 3, 9,
    1, 3, 3, 9,
    0, 2, 5, TIVELGOR_CLOSED,
    2, 3, 4, 9,
    4, 1, TIVELGOR_CLOSED, 2,
    4, 2, 1, 6,
    1, 4, TIVELGOR_CLOSED, 2,
    2, 4, 1, 6,
};

/* The two records, once they are written. */
static uint8_t town[TIVELGOR_NETWORK_LENGTH(links)];
static uint8_t request[TIVELGOR_REQUEST_LENGTH(riders)];

/* Says what was refused and gives 0, or gives 1. */
static int granted(const char *name, uint64_t answer)
{
    if (!TIVELGOR_REFUSED(answer))
        return 1;
    printf("%s: refused %u at %llu\n", name, TIVELGOR_NUMBER(answer), (unsigned long long)TIVELGOR_PLACE(answer));
    return 0;
}

/* Says how long a record is that was written. */
static void tell_length(const char *name, uint64_t answer)
{
    if (granted(name, answer))
        printf("%s: %u bytes\n", name, (unsigned)answer);
}

static void write_town(const char *name, size_t room)
{
    tell_length(name, tivelgor_write_network(nodes, streets, links * TIVELGOR_LINK_NUMBERS, town, room));
}

/* A drive from node 0 to node 3 at bus weight 1, with one rider, who waits at the node and has the weight. */
static void write_request(const char *name, uint64_t node, uint64_t weight)
{
    uint64_t numbers[TIVELGOR_REQUEST_NUMBERS] = {0};

    numbers[TIVELGOR_AT_SOURCE] = 0;
    numbers[TIVELGOR_AT_TARGET] = 3;
    numbers[TIVELGOR_AT_BUS_WEIGHT] = 1;
    numbers[TIVELGOR_AT_RIDERS] = riders;
    numbers[TIVELGOR_AT_NODE(0)] = node;
    numbers[TIVELGOR_AT_WEIGHT(0)] = weight;
    tell_length(name, tivelgor_write_request(nodes, numbers, TIVELGOR_REQUEST_NUMBERS, request, sizeof request));
}

static void read_records(void)
{
    uint64_t size = tivelgor_network(town, sizeof town);
    uint64_t count = tivelgor_request(town, sizeof town, request, sizeof request);

    if (granted("the town", size))
        printf("the town: %u nodes, %u links\n", TIVELGOR_NODES(size), TIVELGOR_LINKS(size));
    if (granted("the request", count))
        printf("the request: %u rider\n", (unsigned)count);
    granted("a town cut short", tivelgor_network(town, sizeof town - 1));
}

static void walk(const char *name, size_t start)
{
    uint32_t distances[nodes];
    size_t v;

    if (!granted(name, tivelgor_walk(town, sizeof town, start, distances, nodes)))
        return;
    printf("%s:", name);
    for (v = 0; v < nodes; v++)
        if (distances[v] == TIVELGOR_NO_DISTANCE)
            printf(" -");
        else
            printf(" %u", (unsigned)distances[v]);
    printf("\n");
}

static void price(const char *name, const uint16_t *route, size_t length)
{
    uint16_t meeting[riders];
    uint64_t answer = tivelgor_price(town, sizeof town, request, sizeof request, route, length, meeting, riders);

    if (granted(name, answer))
        printf("%s: price %llu, met at position %u\n", name, (unsigned long long)answer, (unsigned)meeting[0]);
}

static void plan(const char *name, size_t room)
{
    uint32_t distances[distance_places];
    uint64_t table[table_places];
    uint16_t steps[step_places];
    uint64_t answer = tivelgor_search(town, sizeof town, request, sizeof request, distances, distance_places,
                                      table, table_places, steps, room);
    unsigned i;

    if (!granted(name, answer))
        return;
    printf("%s: cost %llu, steps", name, (unsigned long long)TIVELGOR_COST(answer));
    for (i = 0; i < TIVELGOR_STEPS(answer); i++)
        printf(" %u", (unsigned)steps[i]);
    printf("\ntable: place 5 holds %llu, place 1 %llu, place 3 %llu\n", (unsigned long long)table[5],
           (unsigned long long)table[1], (unsigned long long)table[3]);
}

int main(void)
{
    static const uint16_t past_node_1[] = {0, 1};
    static const uint16_t past_node_2[] = {2, 3};
    static const uint16_t past_the_rider[] = {2, 7, 5, 3};
    static const uint16_t through_the_wall[] = {0, 6};

    write_town("the town written", sizeof town);
    write_town("a town in too small a room", sizeof town - 1);
    write_request("the request written", 4, 1);
    write_request("a rider who weighs 101", 4, 101);
    write_request("a rider at node 5", 5, 1);
    read_records();
    walk("walks from the rider", 4);
    walk("walks from node 5", 5);
    price("past node 1", past_node_1, 2);
    price("past node 2", past_node_2, 2);
    price("past the rider", past_the_rider, 4);
    price("through the wall", through_the_wall, 2);
    plan("the right plan", step_places);
    plan("a plan in too small a room", step_places - 1);
    return 0;
}

/* Prices routes of the depot's small town, as the tablet's host program does. */
#include <stdio.h>

#include "../town.h"
#include "tivelgor.h"

static void price(const char *name, const uint8_t *route, size_t length)
{
    uint64_t answer = tivelgor_tablet_price(town, sizeof town, rider_at_4, sizeof rider_at_4, route, length);

    if (TIVELGOR_REFUSED(answer))
        printf("%s: refused %u\n", name, TIVELGOR_NUMBER(answer));
    else
        printf("%s: price %llu\n", name, (unsigned long long)answer);
}

int main(void)
{
    static const uint8_t past_node_1[] = {0, 0, 0, 1};
    static const uint8_t past_node_2[] = {0, 2, 0, 3};
    static const uint8_t past_the_rider[] = {0, 2, 0, 7, 0, 5, 0, 3};
    static const uint8_t through_the_wall[] = {0, 0, 0, 6};
    static const uint8_t short_of_the_target[] = {0, 0};
    static const uint8_t half_a_link[] = {0, 0, 0};

    price("past node 1", past_node_1, sizeof past_node_1);
    price("past node 2", past_node_2, sizeof past_node_2);
    price("past the rider", past_the_rider, sizeof past_the_rider);
    price("through the wall", through_the_wall, sizeof through_the_wall);
    price("short of the target", short_of_the_target, sizeof short_of_the_target);
    price("half a link", half_a_link, sizeof half_a_link);
    return 0;
}

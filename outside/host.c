/*
 * Makes the calls that standard input asks for. Each is a head, then memory that holds the parts which the function is
 * handed, with other bytes around them. The answer goes to standard output, and the whole memory after the call.
 */
#include <unistd.h>

#include "tivelgor.h"

enum { memory_places = 1 << 18 };

struct part {
    uint64_t offset, length;
};

/* The number is the start of a walk, or n of what is written. */
struct head {
    uint64_t function, number, memory_length;
    struct part parts[5];
};

/* Of 64-bit places, so that parts may be aligned for any element. */
static uint64_t memory[memory_places];

/* Fills the bytes from standard input and gives 1, or gives 0 where it ends. */
static int take(void *bytes, size_t length)
{
    unsigned char *next = bytes;

    while (length > 0) {
        ssize_t taken = read(0, next, length);
        if (taken <= 0)
            return 0;
        next += taken;
        length -= (size_t)taken;
    }
    return 1;
}

static int give(const void *bytes, size_t length)
{
    const unsigned char *next = bytes;

    while (length > 0) {
        ssize_t given = write(1, next, length);
        if (given <= 0)
            return 0;
        next += given;
        length -= (size_t)given;
    }
    return 1;
}

/* Part i of the memory, as the elements it has. */
static void *at(const struct head *head, int i)
{
    return (unsigned char *)memory + head->parts[i].offset;
}

static uint64_t call(const struct head *head)
{
    const struct part *part = head->parts;

    switch (head->function) {
    case 0:
        return tivelgor_network(at(head, 0), part[0].length);
    case 1:
        return tivelgor_request(at(head, 0), part[0].length, at(head, 1), part[1].length);
    case 2:
        return tivelgor_walk(at(head, 0), part[0].length, head->number, at(head, 1), part[1].length);
    case 3:
        return tivelgor_price(at(head, 0), part[0].length, at(head, 1), part[1].length, at(head, 2), part[2].length,
                              at(head, 3), part[3].length);
    case 4:
        return tivelgor_search(at(head, 0), part[0].length, at(head, 1), part[1].length, at(head, 2), part[2].length,
                               at(head, 3), part[3].length, at(head, 4), part[4].length);
    case 5:
        return tivelgor_tablet_price(at(head, 0), part[0].length, at(head, 1), part[1].length, at(head, 2),
                                     part[2].length);
    case 6:
        return tivelgor_write_network(head->number, at(head, 0), part[0].length, at(head, 1), part[1].length);
    default:
        return tivelgor_write_request(head->number, at(head, 0), part[0].length, at(head, 1), part[1].length);
    }
}

int main(void)
{
    struct head head;
    uint64_t answer;

    while (take(&head, sizeof head)) {
        if (head.memory_length > sizeof memory || !take(memory, head.memory_length))
            return 1;
        answer = call(&head);
        if (!give(&answer, sizeof answer) || !give(memory, head.memory_length))
            return 1;
    }
    return 0;
}

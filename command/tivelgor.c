/*
 * tivelgor: a command for the desks, which shows, writes, plans, prices and walks with records in files. It reads,
 * calls the library and prints; the library decides. Numbers in brackets, as (1.2), are paragraphs of docs/RULES.md.
 */
#include <errno.h>
#include <signal.h>
#include <stdio.h>
#include <stdlib.h>
#include <string.h>

#include "text.h"
#include "tivelgor.h"

enum { status_refused = 1 };

/* Where the fields of a network (1.2), of each of its links, and of a request (1.5) stand. */
enum { nodes_at = 5, links_at = 9, link_bytes = 8 };
enum { from_at = 0, to_at = 2, drive_at = 4, walk_at = 6 };
enum { source_at = 3, target_at = 5, bus_weight_at = 7, rider_count_at = 8, riders_at = 9, rider_bytes = 3 };

/* A file is taken whole, whatever the library will say of it, up to a length that no record comes near. */
enum { most_bytes = 16 * 1024 * 1024 };

struct contents {
    uint8_t bytes[most_bytes + 1];
    size_t length;
};

static struct contents network, request;

/* What refusals mean (4.2 to 4.12). Those of too small a room are not among them: every room here is the greatest. */
struct refusal {
    unsigned number;
    const char *meaning, *place;
};

static const struct refusal refusals[] = {
    {1, "network of fewer than 9 bytes", NULL},
    {2, "network of an unknown version", NULL},
    {3, "network not as long as it states", NULL},
    {4, "network without a node, of more than 512 nodes or of more than 2,048 links", NULL},
    {5, "network not as long as its links need", NULL},
    {6, "link from or to a node that is not in the network", "the link"},
    {11, "request of fewer than 9 bytes", NULL},
    {12, "request of an unknown version", NULL},
    {13, "request not as long as it states", NULL},
    {14, "request with more than 7 riders", NULL},
    {15, "request not as long as its riders need", NULL},
    {16, "node of the request with too high a number", "0 source, 1 target, 2 + j rider j"},
    {17, "weight of the request outside 1 to 100", "0 bus, 1 + j rider j"},
    {24, "no drive from source to target that all riders can walk to", NULL},
    {32, "route of more than 4,095 links", NULL},
    {33, "link of the route that is not in the network", "its index in the route, from 0"},
    {34, "link of the route closed to the bus", "its index in the route, from 0"},
    {35, "link of the route that starts elsewhere than where the bus stands", "its index in the route, from 0"},
    {36, "route that does not end at the target", NULL},
    {37, "rider who can walk to no position of the route", "the rider"},
    {41, "start of the walk that is not in the network", NULL},
    {81, "number beyond the limits: 1 to 512 nodes, up to 2,048 links, up to 7 riders, weights of 1 to 100", NULL},
    {82, "node that is not in the network; of a request, one over 511", NULL},
    {0, "for a reason that this command has no words for", NULL},
};

/* Says what went wrong with what, and ends the program. */
static void fail(const char *subject, const char *trouble)
{
    fprintf(stderr, "tivelgor: %s: %s\n", subject, trouble);
    exit(status_failed);
}

/* Tells a refusal, and ends the program. */
static void refuse(unsigned number, uint64_t place)
{
    const struct refusal *refusal = refusals;

    while (refusal->number != number && refusal->number != 0)
        refusal++;
    fprintf(stderr, "tivelgor: refused %u at %llu: %s", number, (unsigned long long)place, refusal->meaning);
    if (refusal->place != NULL)
        fprintf(stderr, " (place: %s)", refusal->place);
    fprintf(stderr, "\n");
    exit(status_refused);
}

/* The answer, if it is no refusal. */
static uint64_t granted(uint64_t answer)
{
    if (TIVELGOR_REFUSED(answer))
        refuse(TIVELGOR_NUMBER(answer), TIVELGOR_PLACE(answer));
    return answer;
}

static int is(const char *word, const char *expected)
{
    return strcmp(word, expected) == 0;
}

/* The number that a word writes in decimal digits. */
static uint64_t number(const char *word, uint64_t greatest)
{
    const char *digit;
    uint64_t value = 0;

    for (digit = word; is_digit(*digit); digit++)
        if (!append(&value, *digit, greatest))
            fail(word, "too great a number");
    if (digit == word || *digit != '\0')
        fail(word, "not a decimal number");
    return value;
}

static void read_file(struct contents *contents, const char *name)
{
    FILE *file = is(name, "-") ? stdin : fopen(name, "rb");

    if (file == NULL)
        fail(name, strerror(errno));
    contents->length = fread(contents->bytes, 1, sizeof contents->bytes, file);
    if (ferror(file))
        fail(name, strerror(errno));
    if (contents->length > most_bytes)
        fail(name, "longer than 16 MiB, and so not read");
    fclose(file);
}

/* Sees that all that went to a file is written. */
static void flush(FILE *file, const char *name)
{
    if (fflush(file) != 0 || ferror(file))
        fail(name, strerror(errno));
}

static void write_file(const char *name, const uint8_t *bytes, size_t length)
{
    FILE *file = is(name, "-") ? stdout : fopen(name, "wb");

    if (file == NULL)
        fail(name, strerror(errno));
    fwrite(bytes, 1, length, file);
    if (file == stdout)
        return; /* The program flushes it at its end. */
    flush(file, name);
    if (fclose(file) != 0)
        fail(name, strerror(errno));
}

static void read_records(char **names)
{
    if (is(names[0], "-") && is(names[1], "-"))
        fail("-", "standard input cannot be both records");
    read_file(&network, names[0]);
    read_file(&request, names[1]);
}

/* The number of 16 bits at a place of a record that the library has accepted. */
static unsigned field(const struct contents *record, size_t place)
{
    return record->bytes[place] * 256u + record->bytes[place + 1];
}

static unsigned link_field(unsigned link, size_t place)
{
    return field(&network, links_at + link_bytes * (size_t)link + place);
}

static void print_cost(const char *use, unsigned cost)
{
    if (cost == TIVELGOR_CLOSED)
        printf(", %s -", use);
    else
        printf(", %s %u", use, cost);
}

static void show_network(void)
{
    uint64_t size = granted(tivelgor_network(network.bytes, network.length));
    unsigned link;

    printf("nodes %u, links %u\n", TIVELGOR_NODES(size), TIVELGOR_LINKS(size));
    for (link = 0; link < TIVELGOR_LINKS(size); link++) {
        printf("link %u: from %u to %u", link, link_field(link, from_at), link_field(link, to_at));
        print_cost("drive", link_field(link, drive_at));
        print_cost("walk", link_field(link, walk_at));
        printf("\n");
    }
}

static void show_request(void)
{
    /* 512 nodes and no link: it has every node that a request can name in any network. */
    static const uint8_t widest[] = {1, 0, 0, 0, 9, 2, 0, 0, 0};
    uint64_t j, riders = granted(tivelgor_request(widest, sizeof widest, request.bytes, request.length));

    printf("source %u, target %u, bus weight %u, riders %u\n", field(&request, source_at), field(&request, target_at),
           (unsigned)request.bytes[bus_weight_at], (unsigned)riders);
    for (j = 0; j < riders; j++) {
        size_t rider = riders_at + rider_bytes * j;

        printf("rider %u: node %u, weight %u\n", (unsigned)j, field(&request, rider),
               (unsigned)request.bytes[rider + 2]);
    }
}

/* Whether a kind of record is that of networks, or else that of requests. */
static int is_network(const char *kind)
{
    if (!is(kind, "network") && !is(kind, "request"))
        fail(kind, "no kind of record; network and request are");
    return is(kind, "network");
}

static void show(char **words)
{
    if (is_network(words[0])) {
        read_file(&network, words[1]);
        show_network();
    } else {
        read_file(&request, words[1]);
        show_request();
    }
}

static struct text open_text(const char *name)
{
    static struct contents contents;
    struct text text = {name, contents.bytes, 0, 0, 1};

    read_file(&contents, name);
    if (contents.length > 0 && contents.bytes[contents.length - 1] != '\n')
        contents.bytes[contents.length++] = '\n';
    text.length = contents.length;
    return text;
}

/* The cost behind a word. */
static uint16_t expect_cost(struct text *text, const char *word)
{
    uint64_t value = TIVELGOR_CLOSED;

    expect(text, word);
    if (!take(text, "-") && !take_number(text, &value, UINT16_MAX))
        slip(text, "a number up to %llu, or -", (unsigned long long)UINT16_MAX);
    return (uint16_t)value;
}

/* The numbers of link k, in the order in which the library takes them (1.11). */
static void read_link(struct text *text, uint64_t k, uint16_t *link)
{
    expect_item(text, "link", k);
    link[0] = (uint16_t)expect_number(text, "from", UINT16_MAX);
    link[1] = (uint16_t)expect_number(text, "to", UINT16_MAX);
    expect(text, ",");
    link[2] = expect_cost(text, "drive");
    expect(text, ",");
    link[3] = expect_cost(text, "walk");
    expect_line_end(text);
}

static void write_network(struct text text, const char *name)
{
    /* No text has more links: the line of each is longer than 16 bytes. */
    static uint16_t links[TIVELGOR_LINK_NUMBERS * (most_bytes / 16)];
    uint8_t room[TIVELGOR_LONGEST_NETWORK];
    size_t nodes, length;
    uint64_t k, count;

    pass_blank_lines(&text);
    nodes = expect_number(&text, "nodes", SIZE_MAX);
    expect(&text, ",");
    count = expect_number(&text, "links", UINT64_MAX);
    expect_line_end(&text);
    for (k = 0; k < count; k++)
        read_link(&text, k, links + TIVELGOR_LINK_NUMBERS * k);
    expect_end(&text, "links", count);
    length = granted(tivelgor_write_network(nodes, links, TIVELGOR_LINK_NUMBERS * count, room, sizeof room));
    write_file(name, room, length);
}

/* Node and weight of rider j, put at their places (4.13); for more riders than there may be, there are none. */
static void read_rider(struct text *text, uint64_t j, uint64_t *value)
{
    uint64_t node, weight;

    expect_item(text, "rider", j);
    node = expect_number(text, "node", UINT64_MAX);
    expect(text, ",");
    weight = expect_number(text, "weight", UINT64_MAX);
    expect_line_end(text);
    if (j < TIVELGOR_MOST_RIDERS) {
        value[TIVELGOR_AT_NODE(j)] = node;
        value[TIVELGOR_AT_WEIGHT(j)] = weight;
    }
}

static void write_request(struct text text, const char *name)
{
    uint64_t value[TIVELGOR_REQUEST_NUMBERS] = {0};
    uint8_t room[TIVELGOR_LONGEST_REQUEST];
    size_t length;
    uint64_t j;

    pass_blank_lines(&text);
    value[TIVELGOR_AT_SOURCE] = expect_number(&text, "source", UINT64_MAX);
    expect(&text, ",");
    value[TIVELGOR_AT_TARGET] = expect_number(&text, "target", UINT64_MAX);
    expect(&text, ",");
    expect(&text, "bus");
    value[TIVELGOR_AT_BUS_WEIGHT] = expect_number(&text, "weight", UINT64_MAX);
    expect(&text, ",");
    value[TIVELGOR_AT_RIDERS] = expect_number(&text, "riders", UINT64_MAX);
    expect_line_end(&text);
    for (j = 0; j < value[TIVELGOR_AT_RIDERS]; j++)
        read_rider(&text, j, value);
    expect_end(&text, "riders", j);
    length = granted(tivelgor_write_request(TIVELGOR_MOST_NODES, value, TIVELGOR_REQUEST_NUMBERS, room, sizeof room));
    write_file(name, room, length);
}

static void write_record(char **words)
{
    int of_network = is_network(words[0]);

    if (!is(words[2], "-o"))
        fail(words[2], "-o is expected in its place, and RECORD behind it");
    if (of_network)
        write_network(open_text(words[1]), words[3]);
    else
        write_request(open_text(words[1]), words[3]);
}

static void plan(char **words)
{
    static uint32_t distances[TIVELGOR_MOST_DISTANCES];
    static uint64_t table[TIVELGOR_MOST_TABLE];
    static uint16_t steps[TIVELGOR_MOST_STEPS];
    uint64_t found;
    unsigned i, node;

    read_records(words);
    found = granted(tivelgor_search(network.bytes, network.length, request.bytes, request.length, distances,
                                    TIVELGOR_MOST_DISTANCES, table, TIVELGOR_MOST_TABLE, steps, TIVELGOR_MOST_STEPS));
    printf("ok %llu %u\n", (unsigned long long)TIVELGOR_COST(found), TIVELGOR_STEPS(found));
    node = field(&request, source_at);
    for (i = 0; i < TIVELGOR_STEPS(found); i++)
        if (TIVELGOR_IS_DRIVE(steps[i])) {
            unsigned link = TIVELGOR_DRIVE_LINK(steps[i]);

            node = link_field(link, to_at);
            printf("drive %u %u %u\n", link, link_field(link, from_at), node);
        } else {
            unsigned rider = steps[i];

            printf("meet %u %u %u\n", rider, node, (unsigned)distances[rider * field(&network, nodes_at) + node]);
        }
}

/* The node at a position of a route (2.5). */
static unsigned node_at(const uint16_t *route, unsigned position)
{
    return position == 0 ? field(&request, source_at) : link_field(route[position - 1], to_at);
}

static void print_price(const uint16_t *route, size_t length)
{
    uint16_t meeting[TIVELGOR_MOST_RIDERS];
    uint64_t price = granted(tivelgor_price(network.bytes, network.length, request.bytes, request.length, route, length,
                                            meeting, TIVELGOR_MOST_RIDERS));
    unsigned j;

    printf("price %llu\n", (unsigned long long)price);
    for (j = 0; j < request.bytes[rider_count_at]; j++)
        printf("rider %u: met at position %u, node %u\n", j, (unsigned)meeting[j], node_at(route, meeting[j]));
}

static void price(char **words)
{
    char **links = words + 2;
    size_t i, length = 0;
    uint16_t *route;

    while (links[length] != NULL)
        length++;
    route = calloc(length + 1, sizeof *route);
    if (route == NULL)
        fail("route", strerror(errno));
    for (i = 0; i < length; i++)
        route[i] = (uint16_t)number(links[i], UINT16_MAX);
    read_records(words);
    print_price(route, length);
    free(route);
}

static void walk(char **words)
{
    uint32_t distances[TIVELGOR_MOST_NODES];
    size_t start = number(words[1], SIZE_MAX);
    unsigned node;

    read_file(&network, words[0]);
    granted(tivelgor_walk(network.bytes, network.length, start, distances, TIVELGOR_MOST_NODES));
    for (node = 0; node < field(&network, nodes_at); node++)
        if (distances[node] == TIVELGOR_NO_DISTANCE)
            printf("node %u: no walk\n", node);
        else
            printf("node %u: walk %u\n", node, (unsigned)distances[node]);
}

/* It needs so many arguments, and may take more; run gets them with NULL behind the last. */
struct subcommand {
    const char *name, *arguments, *summary, *details;
    int needs, takes_more;
    void (*run)(char **words);
};

static const struct subcommand subcommands[] = {
    {"show", "network|request FILE", "shows a record in words",
     "A request is judged beside the largest network there can be, with 512 nodes and\n"
     "no link: all of it, except whether its nodes are in your network.\n",
     2, 0, show},
    {"write", "network|request TEXT -o RECORD", "writes a record from the text that show prints",
     "TEXT has the lines of show, which you may have edited: its words, numbers and\n"
     "signs in their order, links and riders counted in the first line and numbered\n"
     "from 0. A cost of -, or of 65535, closes a link to that use. Spaces and tabs may\n"
     "stand between words, numbers and signs, and blank lines between lines. Where\n"
     "something else is expected, its line is named, and the status is 2. RECORD is\n"
     "opened only when all is right; if writing it fails then, it may be cut short. A\n"
     "request is judged beside the largest network there can be, as with show.\n",
     4, 0, write_record},
    {"plan", "NETWORK REQUEST", "finds the right plan: of least cost, then of fewest steps, then first by its steps",
     "Prints ok COST STEPS, and for each step drive LINK FROM TO or meet RIDER NODE\n"
     "DISTANCE, as the program plan does.\n",
     2, 0, plan},
    {"price", "NETWORK REQUEST LINK..", "prices a route: the links that are driven, in order",
     "Prints the price and where each rider is met: at position 0, the source, at 1,\n"
     "behind the first LINK, and so on. Without a LINK, the route is the empty one.\n",
     2, 1, price},
    {"walk", "NETWORK NODE", "finds the walking distance from a node to each node",
     "Prints a line for each node of the network, in order.\n",
     2, 0, walk},
    {NULL, NULL, NULL, NULL, 0, 0, NULL},
};

static void help(void)
{
    const struct subcommand *each;

    printf("tivelgor plans a minibus.\n\n");
    for (each = subcommands; each->name != NULL; each++)
        printf("  tivelgor %s %s\n      %s\n", each->name, each->arguments, each->summary);
    printf("  tivelgor SUBCOMMAND --help\n      says more of it\n\n"
           "FILE, NETWORK and REQUEST are files with a record each, whose layout is in\n"
           "docs/RULES.md; TEXT is a file with what show prints. One of them may be -, which\n"
           "is standard input. A file of over 16 MiB is not read. RECORD is the file that\n"
           "is written; - is standard output.\n\n"
           "The status is 0 with an answer on standard output; 1 with a refusal on standard\n"
           "error, its number, its place and what they mean; 2 where the call was wrong, a\n"
           "file could not be read, a text is not as expected, or the answer could not be\n"
           "written.\n");
}

static void run(const struct subcommand *called, int count, char **words)
{
    if (count > 0 && is(words[0], "--help")) {
        printf("tivelgor %s %s\n    %s\n\n%s", called->name, called->arguments, called->summary, called->details);
    } else if (count < called->needs || (count > called->needs && !called->takes_more)) {
        fprintf(stderr, "tivelgor: to be called as tivelgor %s %s\n", called->name, called->arguments);
        exit(status_failed);
    } else {
        called->run(words);
    }
}

int main(int count, char **words)
{
    const struct subcommand *called = subcommands;

    signal(SIGPIPE, SIG_IGN); /* A reader that went away is a write that fails. */
    if (count < 2)
        fail("no subcommand", "tivelgor --help lists them");
    while (called->name != NULL && !is(words[1], called->name))
        called++;
    if (called->name != NULL)
        run(called, count - 2, words + 2);
    else if (is(words[1], "--help"))
        help();
    else
        fail(words[1], "no such subcommand; tivelgor --help lists them");
    flush(stdout, "standard output");
    return 0;
}

"""Plans case A of the depot's small town, as a host in Python does: python3 examples/desk/host.py target/libdesk.so"""

import ctypes
import sys
from array import array
from pathlib import Path

# What the macros of include/tivelgor.h know, which Python cannot read: a refusal is REFUSED + PLACE * place + number;
# tivelgor_network gives NODE * n + m, and tivelgor_search COST * cost + steps; CLOSED as a cost closes a link to a use.
REFUSED = 1 << 63
PLACE = 1 << 16
NODE = 1 << 16
COST = 1 << 12
CLOSED = 65535
MOST_RIDERS = 7

# The refusals that records written here can meet; docs/RULES.md has all of them.
MEANINGS = {
    24: "there is no plan",
    81: "a number is beyond its limits",
    82: "a node is not in the network",
}

desk = ctypes.CDLL(str(Path(sys.argv[1]).resolve()))
desk.tivelgor_write_network.restype = ctypes.c_uint64
desk.tivelgor_write_request.restype = ctypes.c_uint64
desk.tivelgor_network.restype = ctypes.c_uint64
desk.tivelgor_request.restype = ctypes.c_uint64
desk.tivelgor_search.restype = ctypes.c_uint64


class Refusal(Exception):
    """What the desk may give instead of an answer."""

    def __init__(self, number, place):
        super().__init__(f"refused {number} at {place}: {MEANINGS.get(number, 'see docs/RULES.md')}")


def granted(answer):
    """The answer, unless it is a refusal."""
    if answer >= REFUSED:
        raise Refusal(answer % PLACE, (answer - REFUSED) // PLACE)
    return answer


def part(memory):
    """A part of memory as the desk takes it: a pointer and a number of elements."""
    return memory, ctypes.c_size_t(len(memory))


def listed(element, code, numbers):
    """Numbers as a part of memory. An array takes none that its elements cannot hold, where ctypes would cut it. It
    has a place more than is handed over, since no part may be without an address."""
    memory = array(code, [*numbers, 0])
    return (element * len(memory)).from_buffer(memory), ctypes.c_size_t(len(numbers))


def write_network(n, links):
    """The record of a network: n nodes, and from, to, drive and walk of each link."""
    numbers = [number for link in links for number in link]
    record = (ctypes.c_uint8 * (9 + 8 * len(links)))()
    granted(desk.tivelgor_write_network(ctypes.c_size_t(n), *listed(ctypes.c_uint16, "H", numbers), *part(record)))
    return record


def write_request(n, source, target, bus_weight, riders):
    """The record of a request in n nodes, with node and weight of each rider."""
    unused = [0] * (MOST_RIDERS - len(riders))
    nodes = [node for node, _ in riders] + unused
    weights = [weight for _, weight in riders] + unused
    numbers = [source, target, bus_weight, len(riders), *nodes, *weights]
    record = (ctypes.c_uint8 * (9 + 3 * len(riders)))()
    granted(desk.tivelgor_write_request(ctypes.c_size_t(n), *listed(ctypes.c_uint64, "Q", numbers), *part(record)))
    return record


def plan(network, request):
    """The cost and the steps of the right plan."""
    records = part(network) + part(request)
    n = granted(desk.tivelgor_network(*part(network))) // NODE
    l = granted(desk.tivelgor_request(*records))
    distances = (ctypes.c_uint32 * max(1, l * n))()
    table = (ctypes.c_uint64 * (2**l * n))()
    steps = (ctypes.c_uint16 * max(1, l + (l + 1) * (n - 1)))()
    answer = granted(desk.tivelgor_search(*records, *part(distances), *part(table), *part(steps)))
    return answer // COST, steps[: answer % COST]


NODES = 5
LINKS = [
    (0, 1, 3, 9),
    (1, 3, 3, 9),
    (0, 2, 5, CLOSED),
    (2, 3, 4, 9),
    (4, 1, CLOSED, 2),
    (4, 2, 1, 6),
    (1, 4, CLOSED, 2),
    (2, 4, 1, 6),
]

town = write_network(NODES, LINKS)
for name, rider in [("case A", (4, 1)), ("a rider at node 5", (5, 1))]:
    try:
        cost, steps = plan(town, write_request(NODES, source=0, target=3, bus_weight=1, riders=[rider]))
        print(f"{name}: cost", cost, "steps", *steps)
    except Refusal as refusal:
        print(f"{name}: {refusal}")

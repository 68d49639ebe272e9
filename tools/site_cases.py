"""Test cases: what the product is expected to do with a site file, and makers of random files.

`tools/make-cases` writes a table of them, and `tools/compare` makes fresh ones.
"""

from collections import Counter
from dataclasses import dataclass

from site_file import ContractLoop, RegionLoop, fields, joint_states, one_region, read, refusal, write
from site_game import answer_lines, marks
from site_traffic import MOST_STATES, Traffic

# A word in the meaning of each one-byte number of a file.
NUMBER_WORDS = [
    "number of loops", "number of regions", "earliest", "deadline",
    "least gap", "greatest gap", "least hold", "greatest hold",
]

FAULTS = range(1, 10)
MOST_SMALL_STATES = 2500

# Words in the meaning of the fields in which a fault may stand.
FAULTY_FIELDS = {
    2: ["mark"],
    3: ["version"],
    4: NUMBER_WORDS[:1],
    5: ["kind"],
    6: NUMBER_WORDS[1:],
    7: ["leads"],
}


# What is expected


@dataclass
class Case:
    data: bytes
    lines: list[str]  # of the verdict
    found: list[int] | None  # the mark of each state, where the file is accepted

    def hexed(self):
        return self.data.hex().upper()


def solved(data: bytes) -> Case:
    """What is expected for a file."""
    refused = refusal(data)
    if refused:
        return Case(data, [refused], None)
    found = marks(Traffic(read(data)))
    return Case(data, answer_lines(found), found)


def fault_number(data):
    """The number by which a file is refused, or None if it is accepted."""
    refused = refusal(data)
    return int(refused.split()[1]) if refused else None


def summary(cases):
    """How many cases there are of each kind."""
    numbers = Counter(fault_number(case.data) for case in cases)
    at_the_limit = sum(case.found is not None and len(case.found) == MOST_STATES for case in cases)
    faults = ", ".join(f"{number}: {numbers[number]}" for number in FAULTS)
    return f"{len(cases)} cases, {numbers[None]} accepted, {at_the_limit} at the limit; refused by number {faults}"


# Changes to a file


def changed(data, offset, new):
    """The file with the bytes at the offset replaced by as many new ones."""
    return data[:offset] + bytes(new) + data[offset + len(new):]


def field_places(loops, word):
    """Where the fields begin whose meaning has this word, and how long they are."""
    found = []
    offset = 0
    for field, meaning in fields(loops):
        if word in meaning:
            found.append((offset, len(field)))
        offset += len(field)
    return found


# Random files


def random_bounds(dice, limit):
    least = dice.randint(1, limit)
    return least, dice.randint(least, limit)


def random_loop(dice):
    if dice.randrange(2):
        return ContractLoop(*random_bounds(dice, dice.choice([3, 64])), *random_bounds(dice, dice.choice([3, 16])))
    count = dice.choice([1, 2, 3, 4, 4, 16])
    regions = []
    for _ in range(count):
        earliest = dice.randint(1, dice.choice([4, 4, 60]))
        deadline = earliest + dice.randint(0, 4)
        sets = [dice.randint(1, 2**count - 1) for _ in range(earliest, deadline + 1)]
        regions.append((earliest, deadline, sets))
    return RegionLoop(regions)


def random_loops(dice):
    return [random_loop(dice) for _ in range(dice.randint(1, 4))]


def random_site(dice):
    return write(random_loops(dice))


def random_change(dice, data):
    """The file with one byte altered, inserted or removed."""
    value = dice.choice([dice.randrange(5), dice.randrange(256)])
    offset = dice.randrange(len(data))
    return dice.choice([
        data[:offset] + bytes([value]) + data[offset + 1:],
        data[:offset] + bytes([value]) + data[offset:],
        data[:offset] + data[offset + 1:],
    ])


def random_changes(dice):
    """A random file with one or two bytes altered, inserted or removed."""
    data = random_site(dice)
    for _ in range(dice.randint(1, 2)):
        data = random_change(dice, data)
    return data


def altered(dice, loops, words):
    """The loops' file with a random byte altered of a field whose meaning has one of these words."""
    data = write(loops)
    found = [place for word in words for place in field_places(loops, word)]
    if not found:
        return data
    offset, size = dice.choice(found)
    return changed(data, offset + dice.randrange(size), [dice.choice([0, dice.randrange(256)])])


def try_fault(dice, number):
    """A random file that may well have a fault of this number."""
    loops = random_loops(dice)
    data = write(loops)
    match number:
        case 1:
            return data[:dice.randrange(len(data))]
        case 8:
            return data + dice.randbytes(dice.randint(1, 9))
        case 9:
            return data
        case _:
            return altered(dice, loops, FAULTY_FIELDS[number])


def random_fault(dice, number):
    """A random file that is refused by this number."""
    while True:
        data = try_fault(dice, number)
        if fault_number(data) == number:
            return data


# Random sites for the game


def random_set(dice, region_count, most, least=1):
    """A set of `least` to `most` regions, or of all."""
    size = dice.randint(least, min(most, region_count))
    return sum(1 << region for region in dice.sample(range(region_count), size))


def random_regions(dice, bounds):
    """A region loop with these bounds and random sets."""
    most = dice.randint(1, 3)
    return RegionLoop([
        (earliest, deadline, [random_set(dice, len(bounds), most) for _ in range(earliest, deadline + 1)])
        for earliest, deadline in bounds
    ])


def random_game_loop(dice, loop_count):
    """A small loop. The more loops there are, the more time it has, so that there may be a schedule."""
    if dice.randrange(3) == 0:
        least_gap = dice.randint(1, loop_count + 1)
        least_hold = dice.choice([1, 1, 1, 2])
        greatest_gap = least_gap + dice.randint(0, loop_count + 2)
        return ContractLoop(least_gap, greatest_gap, least_hold, least_hold + dice.choice([0, 0, 1]))
    bounds = []
    for _ in range(dice.randint(1, 3)):
        earliest = dice.randint(1, 3)
        bounds.append((earliest, earliest + dice.randint(0, loop_count + 2)))
    return random_regions(dice, bounds)


def random_game_loops(dice, loop_count):
    return [random_game_loop(dice, loop_count) for _ in range(loop_count)]


def random_branching_regions(dice, loop_count):
    """A region loop of several regions, each of which has a set of several, and has time for all loops to send."""
    region_count = dice.randint(2, 3)
    regions = []
    for _ in range(region_count):
        earliest = dice.randint(1, 2)
        deadline = loop_count + dice.randint(0, 2)
        sets = [random_set(dice, region_count, region_count) for _ in range(earliest, deadline)]
        sets.insert(dice.randint(0, len(sets)), random_set(dice, region_count, region_count, least=2))
        regions.append((earliest, deadline, sets))
    return RegionLoop(regions)


def random_holding_contract(dice, loop_count):
    """A contract loop that may hold or let go."""
    least_gap = dice.randint(1, loop_count)
    return ContractLoop(least_gap, loop_count + dice.randint(1, 3), 1, dice.randint(2, 3))


def random_branching_loops(dice, loop_count):
    """Loops whose sends leave the plants a choice: of several regions, or to hold on or let go."""
    loops = [random_branching_regions(dice, loop_count), random_holding_contract(dice, loop_count)]
    while len(loops) < loop_count:
        loops.append(dice.choice([random_branching_regions, random_holding_contract])(dice, loop_count))
    dice.shuffle(loops)
    return loops


def random_small_loops(dice, make, loop_count):
    """So many loops as the maker makes them, with not too many joint states."""
    while True:
        loops = make(dice, loop_count)
        if joint_states(loops) <= MOST_SMALL_STATES:
            return loops


def random_loop_of(dice, states, region_count):
    """A region loop of exactly so many states."""
    cuts = sorted(dice.sample(range(1, states // 2), region_count - 1))
    deadlines = [2 * (end - begin) for begin, end in zip([0] + cuts, cuts + [states // 2])]
    return random_regions(dice, [(dice.randint(1, min(deadline, 4)), deadline) for deadline in deadlines])


def random_contract_of(dice, states):
    """A contract loop of exactly so many states."""
    greatest_hold = dice.randint(1, 3)
    return ContractLoop(dice.randint(1, 6), states + 1 - greatest_hold, dice.randint(1, greatest_hold), greatest_hold)


def three_loops(dice, states):
    return [random_loop_of(dice, states, dice.randint(2, 5)) for _ in range(3)]


def two_loops_and_a_contract(dice, states):
    return [random_loop_of(dice, states, 3), random_contract_of(dice, states), random_loop_of(dice, states, 2)]


def four_loops(dice, states):
    return [random_loop_of(dice, states, 2), random_contract_of(dice, states), one_region(1, states // 2)] + [
        random_loop_of(dice, states, 2)
    ]

"""Reads, writes and explains site files, version 1.

It follows the rules of the format and shares nothing with the product's own reader, so that each can check the other.
"""

from dataclasses import dataclass

MARK = b"LKT"
VERSION = 1
REGION_KIND = 1
CONTRACT_KIND = 2

MOST_LOOPS = 4
MOST_REGIONS = 16
MOST_CHECKS = 64  # the limit of an earliest send, a deadline and a gap
MOST_HOLD = 16
MOST_STATES = 32768


@dataclass
class RegionLoop:
    # (earliest, deadline, sets) for each region; sets has one set for each check from earliest to deadline.
    # A set is a number: its bit of value 2^p stands for region p.
    regions: list[tuple[int, int, list[int]]]


@dataclass
class ContractLoop:
    least_gap: int
    greatest_gap: int
    least_hold: int
    greatest_hold: int


def one_region(earliest, deadline):
    """A region loop with region 0 alone, to which every send leads. Where the two break the rules it has at least one set, and
    not very many."""
    set_count = min(max(deadline - earliest + 1, 1), 66)
    return RegionLoop([(earliest, deadline, [0b1] * set_count)])


class Fault(Exception):
    """What is wrong with a file: the fault's number, its loop (from 1; 0 for none) and its byte offset."""

    def __init__(self, number, loop, offset):
        super().__init__(f"fault {number} loop {loop} at {offset}")
        self.number = number
        self.loop = loop
        self.offset = offset


# Reading


class Reader:
    """Goes through a file field by field and raises the first fault."""

    def __init__(self, data):
        self.data = data
        self.offset = 0  # where the next field begins
        self.loop = 0  # the loop whose record is being read; 0 in the header

    def field(self, size):
        end = self.offset + size
        if end > len(self.data):
            raise Fault(1, self.loop, len(self.data))
        field = self.data[self.offset:end]
        self.offset = end
        return field

    def mark(self):
        for offset, (found, wanted) in enumerate(zip(self.field(len(MARK)), MARK)):
            if found != wanted:
                raise Fault(2, self.loop, offset)

    def number(self, size, least, greatest, fault):
        """The next field as a number. It raises the given fault if the number is not from least to greatest."""
        start = self.offset
        number = int.from_bytes(self.field(size), "big")
        if not least <= number <= greatest:
            raise Fault(fault, self.loop, start)
        return number

    def bounds(self, limit):
        """A least value and its greatest value, one byte each."""
        least = self.number(1, 1, limit, fault=6)
        greatest = self.number(1, least, limit, fault=6)
        return least, greatest

    def region(self, region_count):
        earliest, deadline = self.bounds(MOST_CHECKS)
        every_region = 2**region_count - 1
        sets = [self.number(2, 1, every_region, fault=7) for _ in range(earliest, deadline + 1)]
        return earliest, deadline, sets

    def record(self):
        kind = self.number(1, REGION_KIND, CONTRACT_KIND, fault=5)
        if kind == REGION_KIND:
            region_count = self.number(1, 1, MOST_REGIONS, fault=6)
            return RegionLoop([self.region(region_count) for _ in range(region_count)])
        return ContractLoop(*self.bounds(MOST_CHECKS), *self.bounds(MOST_HOLD))

    def site(self):
        self.mark()
        self.number(2, VERSION, VERSION, fault=3)
        loop_count = self.number(1, 1, MOST_LOOPS, fault=4)
        loops = []
        for self.loop in range(1, loop_count + 1):
            loops.append(self.record())
        if self.offset < len(self.data):
            raise Fault(8, 0, self.offset)
        return loops


def read(data: bytes) -> list[RegionLoop | ContractLoop]:
    """The loops of a file. It raises the file's Fault if there is one."""
    return Reader(data).site()


# Writing


def one_byte(number):
    return number.to_bytes(1, "big")


def two_bytes(number):
    return number.to_bytes(2, "big")


def members(region_set):
    """A set of regions in words, such as {0, 2}."""
    names = [str(region) for region in range(MOST_REGIONS) if region_set >> region & 1]
    return "{" + ", ".join(names) + "}"


def region_fields(name, region):
    earliest, deadline, sets = region
    yield one_byte(earliest), f"{name}: earliest send {earliest}"
    yield one_byte(deadline), f"{name}: deadline {deadline}"
    for check, region_set in enumerate(sets, start=earliest):
        yield two_bytes(region_set), f"{name}: a send at check {check} leads to a region of {members(region_set)}"


def record_fields(name, loop):
    if isinstance(loop, RegionLoop):
        yield one_byte(REGION_KIND), f"{name}: kind {REGION_KIND}, a region loop"
        yield one_byte(len(loop.regions)), f"{name}: number of regions {len(loop.regions)}"
        for number, region in enumerate(loop.regions):
            yield from region_fields(f"{name}, region {number}", region)
    else:
        yield one_byte(CONTRACT_KIND), f"{name}: kind {CONTRACT_KIND}, a contract loop"
        yield one_byte(loop.least_gap), f"{name}: least gap {loop.least_gap}"
        yield one_byte(loop.greatest_gap), f"{name}: greatest gap {loop.greatest_gap}"
        yield one_byte(loop.least_hold), f"{name}: least hold {loop.least_hold}"
        yield one_byte(loop.greatest_hold), f"{name}: greatest hold {loop.greatest_hold}"


def fields(loops):
    """Each field of the loops' file in turn: its bytes and their meaning."""
    yield MARK, f"mark {MARK.decode()}"
    yield two_bytes(VERSION), f"version {VERSION}"
    yield one_byte(len(loops)), f"number of loops {len(loops)}"
    for number, loop in enumerate(loops, start=1):
        yield from record_fields(f"loop {number}", loop)


def write(loops: list[RegionLoop | ContractLoop]) -> bytes:
    """The file of these loops. Nothing is checked, so it can write faulty files too."""
    return b"".join(data for data, _ in fields(loops))


# Explaining


def states(loop: RegionLoop | ContractLoop) -> int:
    """The number of states of one loop."""
    if isinstance(loop, RegionLoop):
        return sum(deadline for _, deadline, _ in loop.regions)
    return loop.greatest_gap + loop.greatest_hold - 1


def joint_states(loops):
    product = 1
    for loop in loops:
        product *= states(loop)
    return product


def refused_line(number, loop, offset):
    return f"refused {number} loop {loop} at {offset}"


def refusal(data: bytes) -> str | None:
    """The line that says why a file is refused, or None if it is accepted."""
    try:
        joint = joint_states(read(data))
    except Fault as fault:
        return refused_line(fault.number, fault.loop, fault.offset)
    if joint > MOST_STATES:
        return refused_line(9, 0, 0)
    return None


def dump(data: bytes) -> str:
    """The fields of a file that has no fault, a line for each."""
    lines = ["offset  bytes     meaning"]
    offset = 0
    for field, meaning in fields(read(data)):
        lines.append(f"{offset:6}  {field.hex(' ').upper():8}  {meaning}")
        offset += len(field)
    return "\n".join(lines) + "\n"

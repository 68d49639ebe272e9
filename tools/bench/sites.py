"""The sites of the benchmark."""

import random
import sys
from pathlib import Path

sys.dont_write_bytecode = True
sys.path.insert(0, str(Path(__file__).resolve().parent.parent))
from site_file import RegionLoop, one_region, write


def random_loop(dice, region_count, deadlines, widest, targets):
    """A region loop whose windows, from earliest send to deadline, span up to `widest` checks more than one.

    `deadlines` has the least and the greatest deadline, `targets` the least and the greatest number of regions in a set.
    """
    regions = []
    for _ in range(region_count):
        deadline = dice.randint(*deadlines)
        earliest = dice.randint(max(1, deadline - widest), deadline)
        sets = []
        for _ in range(earliest, deadline + 1):
            reached = dice.sample(range(region_count), dice.randint(*targets))
            sets.append(sum(1 << region for region in reached))
        regions.append((earliest, deadline, sets))
    return RegionLoop(regions)


def some_regions(seed):
    """Three loops of 4 to 6 regions."""
    dice = random.Random(seed)
    return [random_loop(dice, dice.randint(4, 6), (3, 12), 4, (1, 4)) for _ in range(3)]


def most_regions(seed):
    """Two loops of 16 regions, where a send may lead to many of them."""
    dice = random.Random(seed)
    return [random_loop(dice, 16, (3, 19), 63, (6, 12)) for _ in range(2)]


# The seeds were chosen for many states, many rounds and some winning states.
SITES = {
    "two loops (63,63) and (64,64)": [one_region(63, 63), one_region(64, 64)],
    "three loops (1,32)": [one_region(1, 32)] * 3,
    "four loops (1,13)": [one_region(1, 13)] * 4,
    "three loops of 4 to 6 regions": some_regions(26),
    "two loops of 16 regions": most_regions(111),
}


def site_files():
    """The name and the file of each site."""
    return {name: write(loops) for name, loops in SITES.items()}

"""What the program `station` must print of a site file: its slots, or the play into a jam."""

from site_file import read, refusal
from site_game import JAM, has_schedule, marks, permitted, spoiler
from site_traffic import Traffic

MOST_LOOPS = 4  # a state is printed as so many loop states; a place without a loop is always in state 0


def group(traffic, state):
    own = traffic.group(state)
    return " ".join(str(number) for number in own + [0] * (MOST_LOOPS - len(own)))


def check_line(traffic, number, state, move, following):
    done = f"loop {move} sends" if move else "silence"
    return f"check {number}: {group(traffic, state)}, {done}, then {group(traffic, following)}"


def is_jam(traffic, state):
    return traffic.due(state) >= JAM


def longest_run(moves, wanted):
    longest = run = 0
    for move in moves:
        run = run + 1 if move == wanted else 0
        longest = max(longest, run)
    return longest


def course_lines(traffic, found, slots):
    """Slots from state 0, each with the lowest permitted move and the spoiler's reply, or else the lowest next state."""
    lines, states, moves = [], [0], []
    for number in range(1, slots + 1):
        state = states[-1]
        move = next(move for move in range(traffic.loops + 1) if permitted(traffic, found, state, move))
        following = spoiler(traffic, found, state, move)
        if following is None:
            following = traffic.next_states(state, move)[0]
        lines.append(check_line(traffic, number, state, move, following))
        states.append(following)
        moves.append(move)
    lines.append(f"slots: {len(moves)}")
    for loop in range(1, traffic.loops + 1):
        lines.append(f"sends of loop {loop}: {moves.count(loop)}")
    lines.append(f"longest silence: {longest_run(moves, 0)}")
    lines.append("a jam was met" if any(is_jam(traffic, state) for state in states) else "no jam met")
    return lines


def lost_lines(traffic, found):
    """A play from state 0 into a jam, each check with the lowest legal move and the spoiler's reply."""
    count = found[0] - 1
    lines = [f"no schedule: a jam within {count} checks"]
    state, number = 0, 0
    while not is_jam(traffic, state):
        number += 1
        move = next(move for move in range(traffic.loops + 1) if traffic.next_states(state, move))
        following = spoiler(traffic, found, state, move)
        lines.append(check_line(traffic, number, state, move, following))
        state = following
    assert number <= count
    lines.append(f"jam: {group(traffic, state)}")
    return lines


def file_lines(data, slots):
    refused = refusal(data)
    if refused:
        return [refused]
    traffic = Traffic(read(data))
    found = marks(traffic)
    return course_lines(traffic, found, slots) if has_schedule(found) else lost_lines(traffic, found)

"""How a keeper, the refusals of a synthesis and those of a slot are printed."""


def refused(number):
    return f"refused {number}"


def no_schedule(count, winning, rounds):
    return f"no schedule: count {count}, winning {winning}, rounds {rounds}"


def ready(state):
    return f"ready in {state}"


def waiting(state, move):
    return f"waiting in {state} after move {move}"

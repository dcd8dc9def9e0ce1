"""What tests/edits.py and tests/proved_tests.py try of all that they could: a lot, which falls anew in each run, since its seed is
the time. A run prints its seed, and '--seed' has the same lot fall again."""
import math
import random
import time


def seed_of(word):
    """The seed that a run was given, or one from the time."""
    return int(word) if word is not None else time.time_ns()


def drawn(refusals, share, seed):
    """Of refusals that are on record, by the names of their crates, those to be tried again: together they took at least this share
    of the seconds of all. Crates are drawn whole, since each begins with a check of its own, and of the last one a part. Half
    of the seconds go to those that were not tried for longest, the other half to any."""
    chance = random.Random(seed)
    crates = {it: refusals[it] for it in sorted(refusals) if refusals[it]}
    wanted = share * sum(it.seconds for found in crates.values() for it in found)
    by_age = sorted(crates, key=lambda it: (min(one.date for one in crates[it]), chance.random()))
    by_lot = chance.sample(sorted(crates), len(crates))
    found = filled([], by_age, crates, wanted / 2, chance)
    return filled(found, by_lot, crates, wanted, chance)


def filled(found, order, crates, wanted, chance):
    """The refusals that were found, and more of these crates in this order, until all took this many seconds."""
    found = list(found)
    for name in order:
        for one in sorted(crates[name], key=lambda it: (it.date, chance.random())):
            if sum(it.seconds for it in found) >= wanted:
                return found
            if one not in found:
                found.append(one)
    return found


def drawn_tests(tests, share, seed, crates=2):
    """This share of test functions, by the names of their crates: of few crates, since each begins with a check of its own. A crate is
    drawn as often as it has tests."""
    chance, number = random.Random(seed), math.ceil(share * sum(map(len, tests.values())))
    order = sorted((it for it in sorted(tests) if tests[it]), key=lambda it: -(chance.random() ** (1 / len(tests[it]))))
    while crates < len(order) and sum(len(tests[it]) for it in order[:crates]) < number:
        crates += 1
    of_any = [(name, it) for name in order[:crates] for it in tests[name]]
    found = {}
    for name, it in sorted(chance.sample(of_any, min(number, len(of_any)))):
        found.setdefault(name, []).append(it)
    return found

"""What sharing_cases must write, worked out apart from the code: for each sharing all choices are tried, the least sum
of rate x tick x 2^(K-k) is taken, and among equals the choice whose first title has most, then the second, and so on.

    python3 crates/sharing_cases/expected.py | diff - crates/sharing_cases/stdout
"""

from itertools import product

NO_LANES, WRONG_ROWS, OUTSIDE_LIMITS, FLOOR_ABOVE_CAP = 9, 10, 1, 15


def term(title, k):
    rate, length, floor, cap = title
    held = 2**cap - 2 ** (cap - floor)
    tick = (length + held - 1) // held
    return rate * tick * 2 ** (cap - k)


def rank(titles, counts):
    """Less is better."""
    return sum(map(term, titles, counts)), [-k for k in counts]


def by_all_choices(pool, titles):
    choices = product(*(range(floor, cap + 1) for _, _, floor, cap in titles))
    return min((list(x) for x in choices if sum(x) <= pool), key=lambda x: rank(titles, x))


def by_titles(pool, titles):
    """The same where the choices are too many to list: for every pool the best of the last titles, title by title."""
    best = {p: [] for p in range(pool + 1)}
    for n in range(1, len(titles) + 1):
        last = titles[-n:]
        floor, cap = last[0][2:]
        better = {}
        for p in range(pool + 1):
            ways = [[k] + best[p - k] for k in range(floor, cap + 1) if p - k in best]
            if ways:
                better[p] = min(ways, key=lambda x: rank(last, x))
        best = better
    return best[pool]


def allowed(title):
    rate, length, floor, cap = title
    return 1 <= rate <= 1000 and 1 <= length <= 14_400_000 and 2 <= floor <= 5 and 2 <= cap <= 12


def run(pool, rates, lengths, floors, caps, places=17):
    row = [77] * places
    n = len(rates)
    titles = list(zip(rates, lengths, floors, caps))
    if not len(lengths) == len(floors) == len(caps) == n or n > 16 or n > places:
        answer = WRONG_ROWS
    elif not 1 <= pool <= 64 or not all(map(allowed, titles)):
        answer = OUTSIDE_LIMITS
    elif any(floor > cap for _, _, floor, cap in titles):
        answer = FLOOR_ABOVE_CAP
    elif sum(floors) > pool:
        answer = NO_LANES
    else:
        answer = 0
        row[:n] = by_titles(pool, titles) if n > 4 else by_all_choices(pool, titles)
        assert n > 4 or row[:n] == by_titles(pool, titles)
    print(answer, *row)


def two(pool, rates, lengths):
    run(pool, rates, lengths, [2, 2], [4, 4])


def three(pool, *rates):
    run(pool, rates, [210] * 3, [2] * 3, [5] * 3)


def near(pool, rate, length, first):
    run(pool, [first, rate], [14_399_000, length], [2, 2], [10, 10])


def largest(pool):
    run(pool, [1000] * 16, [14_400_000] * 16, [2] * 16, [10] * 16)


def mixed(pool):
    rates = [1000, 1, 500, 250, 999, 7, 64, 300, 1000, 12, 90, 610, 2, 45, 800, 333]
    lengths = [14_400_000, 1, 7_200_000, 14_400_000, 5_400_000, 14_400_000, 600_000, 60_000]
    lengths += [9_000_000, 3_600_000, 14_399_999, 1_000, 12_345_678, 8_000_000, 4_000_000, 10_000_000]
    floors = [2, 2, 3, 2, 2, 4, 2, 2, 2, 2, 2, 5, 2, 2, 2, 2]
    caps = [10, 2, 10, 3, 9, 4, 10, 10, 4, 10, 10, 5, 10, 10, 10, 10]
    run(pool, rates, lengths, floors, caps)


def limits(pool, rate, length, floor, cap):
    run(pool, [5, rate, 1], [100, length, 14_400_000], [2, floor, 2], [3, cap, 10])


def longest(pool):
    run(pool, [1, 1000], [1, 14_400_000], [2, 2], [12, 12])


for pool in 4, 5, 6, 7, 3:
    two(pool, [1, 2], [210, 210])
two(5, [1, 1], [210, 210])
two(6, [4, 9], [12, 12])
two(5, [3, 2], [12, 13])
for pool in 7, 8, 10:
    three(pool, 1, 1, 1)
for pool in 8, 9, 10, 64:
    three(pool, 2, 5, 2)
near(6, 973, 7_391_500, 999)
near(6, 916, 7_820_000, 995)
for pool in 64, 47, 31:
    largest(pool)
for pool in 64, 50:
    mixed(pool)
limits(64, 5, 100, 2, 3)
limits(64, 0, 100, 2, 3)
limits(64, 1001, 100, 2, 3)
limits(64, 5, 0, 2, 3)
limits(64, 5, 14_400_001, 2, 3)
limits(64, 5, 100, 1, 3)
limits(64, 5, 100, 6, 10)
limits(64, 5, 100, 2, 13)
limits(64, 5, 100, 2, 12)
longest(24)
longest(20)
limits(0, 5, 100, 5, 4)
limits(5, 5, 100, 5, 4)
limits(8, 5, 100, 5, 5)
limits(9, 5, 100, 5, 5)
one, pair, none, many = [2], [2, 2], [], [2] * 17
run(9, one, pair, pair, pair)
run(9, pair, one, pair, pair)
run(9, pair, pair, one, pair)
run(0, pair, pair, pair, one)
run(64, many, many, many, many)
run(1, none, none, none, none)
run(0, none, none, none, none)
run(65, none, none, none, none)
run(0, pair, pair, pair, pair, places=1)

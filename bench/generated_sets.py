"""Task sets for the benchmarks, made from a number."""
import random

import commands  # its import says where sets is
from sets import resource, set_of, task

PERIODS = (10000, 20000, 25000, 40000, 50000, 100000, 200000, 1000000)


def assembled(processors, homes, tasks):
    """The set of these parts: the homes of its resources q1, q2, .., and of each task its processor, period and cost, and its requests,
    each the number of a resource from 0 on, a count and a length. Tasks with shorter periods stand first."""
    listed = []
    for number, (processor, period, cost, requests) in enumerate(tasks, 1):
        listed.append(task(f"t{number}", processor, period, cost, *((f"q{q + 1}", length, count) for q, count, length in requests)))
    listed.sort(key=lambda one: one["period"])
    return set_of(processors, [resource(f"q{q}", home) for q, home in enumerate(homes, 1)], *listed)


def in_turn(count, processors):
    """A processor for each of so many, in turn."""
    return [k % processors + 1 for k in range(count)]


def seeded(seed):
    return random.Random(seed)


def generated(n, draw):
    """A set of n tasks with resources, from a generator of numbers."""
    processors = max(2, n // 4)
    homes = in_turn(max(2, n // 4), processors)
    tasks = []
    for processor in in_turn(n, processors):
        period = draw.choice(PERIODS)
        cost = period * draw.randint(20, 120) * processors // (1000 * n) * 4
        chosen = draw.sample(range(len(homes)), draw.randint(0, min(3, len(homes))))
        tasks.append((processor, period, max(cost, 110), [(q, draw.randint(1, 2), draw.randint(1, 100)) for q in chosen]))
    return assembled(processors, homes, tasks)


def is_prime(number):
    return number > 1 and all(number % divisor for divisor in range(2, int(number**0.5) + 1))


def long_prime(draw, longest):
    """A prime of about as many digits as the longest, or of a few less."""
    number = draw.randint(longest // 1000, longest)
    while not is_prime(number):
        number -= 1
    return number


def generated_long(n, draw, longest):
    """A set of n tasks whose lengths are long primes, and whose costs don't hold all their requests at once, as where a job takes one of
    several paths."""
    processors = max(2, n // 4)
    homes = in_turn(max(2, n // 4), processors)
    tasks = []
    for processor in in_turn(n, processors):
        chosen = draw.sample(range(len(homes)), draw.randint(1, min(3, len(homes))))
        requests = [(q, draw.randint(1, 2), long_prime(draw, longest)) for q in chosen]
        critical = sum(count * length for _, count, length in requests)
        cost = max(critical * draw.randint(50, 100) // 100, 1 + max(length for _, _, length in requests))
        period = min(draw.choice(PERIODS[-5:]) * longest // 1000, 10**9)
        tasks.append((processor, period, cost, requests))
    return assembled(processors, homes, tasks)


def generated_crowded(n, draw, longest):
    """A set of n tasks on four processors, each with requests of four of eight resources, which are at most so long."""
    processors, homes = 4, in_turn(8, 4)
    tasks = []
    for processor in in_turn(n, processors):
        period = draw.choice(PERIODS)
        share = 0.45 * processors / n
        cost = max(300, int(period * share * draw.uniform(0.6, 1.4)))
        chosen = draw.sample(range(len(homes)), 4)
        tasks.append((processor, period, cost, [(q, draw.randint(1, 3), draw.randint(1, longest)) for q in chosen]))
    return assembled(processors, homes, tasks)


def generated_at_limits(processors, draw):
    """A set at the limits: each of 64 tasks on so many processors requests 4 of 32 resources."""
    homes = [draw.randint(1, processors) for _ in range(32)]
    tasks = []
    for number in range(1, 65):
        cost = draw.randint(100, 499)
        requests = [(q, draw.randint(1, 3), draw.randint(1, 20)) for q in draw.sample(range(len(homes)), 4)]
        tasks.append((draw.randint(1, processors), 10_000 * number, cost, requests))
    return assembled(processors, homes, tasks)

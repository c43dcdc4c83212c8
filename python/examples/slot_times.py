"""How long a slot takes from Python: python3 slot_times.py [ROUNDS]

Full rows of level 0; for each number of ports the least time of 400 batches of 50 slots, in nanoseconds a slot, and of
`Scheduler.decide_many` that of 40 calls for 1,000 slots.
"""

import sys
import time

import numpy

from tiny_tera.scheduling import UNICAST, Pointers, Scheduler, decide, sets

BATCHES, SLOTS = 400, 50
MANY_BATCHES, MANY_SLOTS = 40, 1000


def least(call, batches=BATCHES, calls=SLOTS):
    """The least time of a call over batches, in nanoseconds."""
    times = []
    for _ in range(batches):
        begin = time.perf_counter_ns()
        for _ in range(calls):
            call()
        times.append(time.perf_counter_ns() - begin)
    return min(times) / calls


def main(rounds):
    print("ports  Scheduler.decide  sets and decide  decide  Scheduler.decide_many")
    for ports in (4, 16, 32, 64):
        scheduler, pointers = Scheduler(ports, rounds), Pointers()
        waiting = numpy.ones((ports, ports), dtype=bool)

        def with_sets():
            scheduler.rows[:, UNICAST, 0] = sets(waiting)
            scheduler.decide()

        with_sets()
        rows = scheduler.rows.copy()
        times = [least(call) for call in (scheduler.decide, with_sets, lambda: decide(rows, pointers, 0, rounds))]
        many = numpy.broadcast_to(rows, (MANY_SLOTS, *rows.shape)).copy()
        times.append(least(lambda: scheduler.decide_many(many), MANY_BATCHES, 1) / MANY_SLOTS)
        print(f"{ports:5}  {times[0]:16.0f}  {times[1]:15.0f}  {times[2]:6.0f}  {times[3]:21.0f}")


if __name__ == "__main__":
    main(int(sys.argv[1]) if len(sys.argv) > 1 else 4)

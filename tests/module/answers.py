"""The outside vectors as cases for the module of viewer/module, and what each must give."""

import sys
from pathlib import Path

sys.path.insert(0, str(Path(__file__).resolve().parents[2] / "python/tests"))

import known_rows  # noqa: E402

FREE = 255
NO_SHARED = [0] * known_rows.LEVELS


def empty_tables(first):
    """Tables of pointers by level, all at port 0 but those of level 0."""
    rest = [0] * known_rows.MOST_PORTS
    return [[*first, *rest[len(first) :]], *[rest] * (known_rows.LEVELS - 1)]


def of_level_0(sets):
    """Rows of one level of unicast."""
    return [[outputs, *[0] * 7] for outputs in sets]


def case(ports, rounds, grant, accept, shared, slots, rule="islip"):
    """A case as tests/module/cases.js takes it; sets go as text, since numbers of a script have no 64 bits."""
    texts = [{"slot": slot, "rows": [[str(word) for word in row] for row in rows]} for slot, rows in slots]
    return {"ports": ports, "rounds": rounds, "rule": rule, "grant": grant, "accept": accept, "shared": shared, "slots": texts}


def within(tables, ports):
    return [port for level in tables for port in level[:ports]]


def answer(ports, feeds, used, grant, accept, shared):
    """What a slot gives, as tests/module/cases.js tells it."""
    return {
        "inputs": [FREE if feed == known_rows.FREE else feed[0] for feed in feeds],
        "queues": [0 if feed == known_rows.FREE else 2 * feed[1] + feed[2] for feed in feeds],
        "used": used, "grant": within(grant, ports), "accept": within(accept, ports), "shared": shared,
    }


def unicast():
    """Slots of one level: what iSLIP does with them, the scheduler of all levels does too."""
    for row in known_rows.unicast_rows():
        feeds = [known_rows.FREE if port == known_rows.NONE else (port, 0, 0) for port in row.fed]
        tables = map(empty_tables, (row.grant, row.accept, row.grant_after, row.accept_after))
        grant, accept, grant_after, accept_after = tables
        slots = [(0, of_level_0(row.asks))]
        wanted = answer(row.ports, feeds, row.used, grant_after, accept_after, NO_SHARED)
        yield row.name, case(row.ports, row.rounds, grant, accept, NO_SHARED, slots), lambda told, wanted=wanted: told == [wanted]


def decisions():
    for row in known_rows.decision_rows():
        after = (row.grant_after, row.accept_after, row.shared_after)
        wanted = answer(row.ports, row.feeds, row.used, *after)
        given = case(row.ports, row.rounds, row.grant, row.accept, row.shared, [(row.slot, row.rows)])
        yield row.name, given, lambda told, wanted=wanted: told == [wanted]


def schedules():
    """Slots one after the other; of their pointers the shared ones are stated."""
    for found in known_rows.schedules():
        zero = empty_tables([])
        slots = [(number, slot[0]) for number, slot in enumerate(found.slots)]
        given = case(found.ports, found.rounds, zero, zero, NO_SHARED, slots)
        wanted = [answer(found.ports, feeds, used, [], [], shared) for _, feeds, used, shared in found.slots]
        yield found.name, given, lambda told, wanted=wanted: [{**slot, "grant": [], "accept": []} for slot in told] == wanted


def long_waits(rule, name):
    """Input 0 is fed to output 0 in the last slot alone."""
    for found in known_rows.long_waits(name):
        slots = [(slot, of_level_0(sets)) for slot, sets in enumerate(found.slots)]
        given = case(found.ports, found.rounds, empty_tables([found.grant_0]), empty_tables(found.accept), NO_SHARED, slots, rule)
        yield f"{name} {found.ports} {found.rounds}", given, served_last


def served_last(told):
    return [slot["inputs"][0] == 0 for slot in told] == [False] * (len(told) - 1) + [True]


def refused():
    """A set and a pointer of each table beyond two ports."""
    full, beyond = of_level_0([3, 3]), empty_tables([0, 2])
    zero = empty_tables([])
    for name, rows, grant, accept, shared in (
        ("set", of_level_0([4, 0]), zero, zero, NO_SHARED), ("grant pointer", full, beyond, zero, NO_SHARED),
        ("accept pointer", full, zero, beyond, NO_SHARED), ("shared pointer", full, zero, zero, [0, 0, 0, 2]),
    ):
        yield f"{name} beyond the ports", case(2, 1, grant, accept, shared, [(0, rows)]), lambda told: told == ["refused"]


def all_cases():
    """The name of each case, what is given, and a call that says whether what is told is as it should be."""
    return [
        *unicast(), *decisions(), *schedules(),
        *long_waits("islip", "longest_waits"), *long_waits("firm", "longest_waits_firm"), *refused(),
    ]

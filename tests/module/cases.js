// Runs cases by the module of viewer/module, for tests/run_module, in a browser and under node.
//
// A case has ports, rounds, rule, grant and accept (by level, 64 ports each), shared, and slots, each with its number
// and its rows: for each input eight sets as decimal text, four of unicast and four of multicast.
"use strict";

function rowsOf(viewer, ports, sets) {
    const rows = new viewer.Rows(ports);
    sets.forEach((row, input) => row.forEach((set, at) => {
        const place = rows.place(input, at >> 2, at & 3);
        rows.words[place] = Number(BigInt(set) & 0xffffffffn);
        rows.words[place + 1] = Number(BigInt(set) >> 32n);
    }));
    return rows;
}

function pointersOf(viewer, { ports, grant, accept, shared }) {
    const pointers = new viewer.Pointers(ports);
    pointers.grant.set(grant.flatMap((level) => level.slice(0, ports)));
    pointers.accept.set(accept.flatMap((level) => level.slice(0, ports)));
    pointers.shared.set(shared);
    return pointers;
}

/** For each slot of a case its match, numbers of rounds and the pointers after it, or "refused". */
function runCase(viewer, module, it) {
    const pointers = pointersOf(viewer, it);
    const scheduler = viewer.makeScheduler(module, it.ports, it.rounds, it.rule);
    return it.slots.map(({ slot, rows }) => {
        try {
            scheduler.decide(slot, rowsOf(viewer, it.ports, rows), pointers);
        } catch (fault) {
            return fault instanceof RangeError ? "refused" : String(fault);
        }
        return {
            inputs: [...scheduler.inputs], queues: [...scheduler.queues],
            used: [scheduler.used, scheduler.first, scheduler.lastAdded],
            grant: [...pointers.grant], accept: [...pointers.accept], shared: [...pointers.shared],
        };
    });
}

/** The least time of a slot of full rows of level 0 in four rounds, in nanoseconds. */
function slotTime(viewer, module, ports) {
    const scheduler = viewer.makeScheduler(module, ports, 4);
    const full = String((1n << BigInt(ports)) - 1n);
    const rows = rowsOf(viewer, ports, Array.from({ length: ports }, () => [full, 0, 0, 0, 0, 0, 0, 0]));
    const pointers = new viewer.Pointers(ports);
    const [batches, slots] = [30, 500];
    let least = Infinity;
    for (let batch = 0; batch < batches; batch += 1) {
        const begin = performance.now();
        for (let slot = 0; slot < slots; slot += 1) {
            scheduler.decide(slot, rows, pointers);
        }
        least = Math.min(least, performance.now() - begin);
    }
    return Math.round(least * 1e6 / slots);
}

/** What the cases give, and the times for some numbers of ports. */
function runCases(viewer, module, { cases, times }) {
    return {
        answers: cases.map((it) => runCase(viewer, module, it)),
        times: times.map((ports) => slotTime(viewer, module, ports)),
    };
}

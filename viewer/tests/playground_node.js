// What viewer/tests/test_playground.py asks of the scripts of the playground, under node: reads JSON from standard input.
"use strict";

const { readFileSync } = require("node:fs");
const { join } = require("node:path");
const { runInThisContext } = require("node:vm");

const VIEWER = join(__dirname, "..");
const page = readFileSync(join(VIEWER, "playground.html"), "utf8");
// The scripts of the page that draw nothing.
const scripts = Array.from(page.matchAll(/<script src="([^"]*)"/g), ([, name]) => name)
    .filter((name) => !/theme|wasm|playground(_grid|_text|_traffic|_fields)?\.js/.test(name));
for (const name of scripts) {
    runInThisContext(readFileSync(join(VIEWER, name), "utf8"), name);
}

const viewer = globalThis.SlotViewer;
const RULES = viewer.SCHEDULERS.map(({ name }) => name);

function finish(generator) {
    let step = generator.next();
    while (!step.done) {
        step = generator.next();
    }
    return step.value;
}

/** What a call gives, or the words of its FileFault. */
function told(call) {
    try {
        return call();
    } catch (fault) {
        if (!(fault instanceof viewer.FileFault)) {
            throw fault;
        }
        return fault.message;
    }
}

/** All that a playground shows, as text. */
function shown(model) {
    const slots = model.history.map(({ slot, cells, edits, inputs, used, waits, before, after, dropped, sums }) => {
        const pointers = [before, after].map(({ grant, accept }) => [[...grant], [...accept]]);
        return [slot, [...cells], [...edits].sort(), [...inputs], used, [...waits], pointers, dropped, sums];
    });
    const now = [[...model.cells], model.arrivals.lists, model.dropped, [...model.edits].sort(), [...model.pointers.grant], [...model.pointers.accept]];
    return JSON.stringify([model.ports, model.rounds, model.rule, model.queues, model.begin, model.script, model.traffic, slots, now]);
}

/** A traffic whose numbers `below` draws. */
function madeTraffic(below) {
    const { name, isWeighed } = viewer.TRAFFIC[below(viewer.TRAFFIC.length)];
    const weight = isWeighed ? below(1000001) : 0;
    return { pattern: name, load: below(1000001), weight, burst: 1 + below(20), seed: below(1000000001), depth: 1 + below(5) };
}

/** A playground with clicks, loads and slots that a seed makes. */
function madeModel(seed) {
    const next = viewer.randomNumbers(seed);
    const below = (count) => Math.floor(next() * count);
    const ports = 1 + below(9);
    const list = () => Array.from({ length: ports }, () => below(ports));
    const line = () => Array.from({ length: ports * ports }, (_, place) => place).filter(() => next() < 0.4);
    const lines = Array.from({ length: below(4) }, line);
    const settings = {
        ports,
        rounds: 1 + below(4),
        rule: RULES[below(3)],
        queues: viewer.QUEUES[below(2)].name,
        begin: below(2) === 0 ? null : { grant: list(), accept: list() },
        script: { lines, again: lines.length > 0 && below(2) === 0 ? below(lines.length) : null },
        traffic: below(3) === 0 ? madeTraffic(below) : null,
    };
    const model = new viewer.Playground(null, settings);
    for (let slot = below(12); slot >= 0; slot -= 1) {
        if (below(4) === 0) {
            viewer.loadPattern(model, { name: ["full", "diagonal", "hot", "random", "none"][below(5)], seed: below(99), share: 30 });
        }
        for (let click = below(6); click > 0; click -= 1) {
            model.click(below(ports), below(ports), below(4) === 0);
        }
        if (slot > 0) {
            model.step();
        }
    }
    return model;
}

function opened(link) {
    const { settings, edits } = viewer.readLink(link);
    return finish(new viewer.Playground(null, settings).replay(edits));
}

const ASKED = {
    /** Of made playgrounds: those whose link gives another one, and those that differ after slots back and on again. */
    links({ count }) {
        const models = Array.from({ length: count }, (_, seed) => madeModel(seed));
        const wrong = models.filter((model) => shown(opened(viewer.writeLink(model))) !== shown(model));
        return { wrong: wrong.length, slots: models.reduce((sum, { slot }) => sum + slot, 0) };
    },
    back({ count }) {
        return Array.from({ length: count }, (_, seed) => seed).filter((seed) => {
            const model = madeModel(seed);
            const states = [shown(model)];
            while (model.slot > 0) {
                model.back();
                states.push(shown(model));
            }
            // From each state the next slot leads to the one before it in the list, but for what was changed by hand after it.
            const edits = madeModel(seed).allEdits();
            const again = finish(new viewer.Playground(null, model).replay(edits));
            return shown(again) !== states[0] || new Set(states).size !== states.length;
        });
    },
    /** Of a link the changes and cuts that are not refused. */
    damage({ seed }) {
        const link = viewer.writeLink(madeModel(seed));
        const changed = Array.from(link, (letter, at) => `${link.slice(0, at)}${letter === "0" ? "1" : "0"}${link.slice(at + 1)}`);
        const cut = Array.from(link, (_, at) => link.slice(0, at));
        const isTaken = (one) => typeof told(() => viewer.readLink(one)) !== "string";
        return { letters: link.length, taken: changed.slice(1).concat(cut.slice(1)).filter(isTaken) };
    },
    linkFaults({ links }) {
        return links.map((link) => told(() => Boolean(viewer.readLink(link))));
    },
    /** The lengths of links of 64 ports: of a random load, and of as many slots of such loads; 0 for none. */
    longLinks({ slots }) {
        const model = new viewer.Playground(null, { ports: 64 });
        return Array.from({ length: slots }, (_, slot) => {
            viewer.loadPattern(model, { name: "random", seed: slot, share: 50 });
            const link = viewer.writeLink(model);
            model.step();
            return link === null ? 0 : link.length;
        });
    },
    scripts({ texts }) {
        return texts.map((text) => told(() => {
            const { ports, rounds, lines, matches } = viewer.readScript(text, 3);
            return { ports, rounds, lines, matches: matches.map((match) => match && [...match]) };
        }));
    },
    decidedAll({ cases }) {
        return cases.map((one) => ASKED.decided(one));
    },
    /** Decides the slots of a text: their matches, waits, the text that is written of them, and the first slot unlike the text. */
    decided({ text, settings, slots }) {
        const { ports, rounds, lines, matches } = viewer.readScript(text, 4);
        const model = new viewer.Playground(null, { ports, rounds: rounds || 1, script: { lines, again: null }, ...settings });
        for (let slot = 0; slot < slots; slot += 1) {
            model.step();
        }
        return {
            matches: model.history.map(({ inputs }) => [...inputs]),
            waits: model.history.map(({ waits }) => [...waits]),
            cells: model.history.map(({ cells }) => [...cells]),
            text: viewer.writeScript(model),
            unlike: viewer.firstUnlike(model, matches),
        };
    },
    /** Whether the slots of made playgrounds, decided anew by other settings, are those of playgrounds that had them from the start. */
    anew({ count }) {
        return Array.from({ length: count }, (_, seed) => seed).filter((seed) => {
            const model = madeModel(seed);
            const changes = { rule: RULES[seed % 3], rounds: 1 + seed % 5 };
            const made = finish(model.like(changes).replay(model.allEdits()));
            const straight = model.like(changes);
            model.allEdits().forEach((edits, slot) => {
                edits.forEach((by, place) => straight.change(place, by));
                if (slot < model.slot) {
                    straight.step();
                }
            });
            const isAsked = model.queues === "cells" || made.history.every(({ cells }, slot) => cells.join() === model.history[slot].cells.join());
            return shown(made) !== shown(straight) || made.slot !== model.slot || !isAsked;
        });
    },
    words({ state, count }) {
        const stream = new viewer.RandomStream(0, 0);
        stream.state = BigInt(state);
        return Array.from({ length: count }, () => `${stream.next()}`);
    },
    /** Of each traffic what comes to each input in each slot. */
    coming({ traffics, slots }) {
        return traffics.map(({ ports, ...traffic }) => {
            const made = new viewer.MadeTraffic(traffic, ports);
            return Array.from({ length: slots }, (_, slot) => made.coming(slot));
        });
    },
    /** Of each job what is counted behind some of its slots, with the longest wait up to there. */
    sums({ jobs, slots }) {
        return jobs.map((settings) => {
            const model = new viewer.Playground(null, settings);
            while (model.slot < Math.max(...slots)) {
                model.step();
            }
            const longest = (count) => Math.max(...model.history.slice(0, count).flatMap(({ waits }) => [...waits]));
            return slots.map((count) => ({ ...model.history[count - 1].sums, longest: longest(count) }));
        });
    },
    random({ seeds }) {
        const make = (seed, share) => {
            const model = new viewer.Playground(null, { ports: 8 });
            viewer.loadPattern(model, { name: "random", seed, share });
            return model.cells.join("");
        };
        return { same: seeds.every((seed) => make(seed, 50) === make(seed, 50)), kinds: new Set(seeds.map((seed) => make(seed, 50))).size,
            none: Number(make(1, 0)), all: /^1+$/.test(make(1, 100)) };
    },
};

const { asks, ...given } = JSON.parse(readFileSync(0, "utf8"));
console.log(JSON.stringify(ASKED[asks](given)));

// The state of the playground as the fragment of its address, in words, with a sum against damage.
(function (viewer) {
    "use strict";

    const { FileFault, MAX_PORTS, MAX_ROUNDS, TRAFFIC, TRAFFIC_LIMITS } = viewer;

    /** A longer fragment is neither made nor read: programs cut longer addresses. */
    const MOST_LETTERS = 8000;
    /** Places are listed, which a reader understands, unless all bits are so many letters shorter. */
    const LETTERS_FOR_READING = 12;
    const SUM = /^(.*)&sum=([0-9a-f]{8})$/;
    const NUMBER = /^(0|[1-9]\d{0,9})$/;
    const RUN = /^(0|[1-9]\d{0,3})(?:-([1-9]\d{0,3}))?$/;
    const BITS = /^~[A-Za-z0-9_-]+$/;
    const CRC_POLYNOMIAL = 0xedb88320;

    /** The CRC-32 of a text of ASCII letters, as eight digits. */
    function sumOf(text) {
        let crc = 0xffffffff;
        for (const letter of text) {
            crc ^= letter.charCodeAt(0);
            for (let bit = 0; bit < 8; bit += 1) {
                crc = (crc >>> 1) ^ (crc & 1 ? CRC_POLYNOMIAL : 0);
            }
        }
        return (~crc >>> 0).toString(16).padStart(8, "0");
    }

    function damaged(what) {
        throw new FileFault(`the link is damaged: ${what}`);
    }

    // Sets of places: `0-3,7`, or all bits of the crossbar in base 64 where that is shorter.

    function runsOf(places) {
        const runs = [];
        places.forEach((place) => {
            const run = runs[runs.length - 1];
            if (run !== undefined && run[1] === place - 1) {
                run[1] = place;
            } else {
                runs.push([place, place]);
            }
        });
        return runs.map(([from, to]) => (from === to ? `${from}` : `${from}-${to}`)).join(",");
    }

    function bitsOf(places, count) {
        const bytes = new Uint8Array(Math.ceil(count / 8));
        places.forEach((place) => {
            bytes[place >> 3] |= 1 << (place & 7);
        });
        return `~${btoa(String.fromCharCode(...bytes)).replace(/\+/g, "-").replace(/\//g, "_").replace(/=/g, "")}`;
    }

    function writeSet(places, count) {
        const sorted = Array.from(places).sort((a, b) => a - b);
        const [runs, bits] = [runsOf(sorted), bitsOf(sorted, count)];
        return runs.length <= bits.length + LETTERS_FOR_READING ? runs : bits;
    }

    function readBits(text, count) {
        const bytes = atob(text.slice(1).replace(/-/g, "+").replace(/_/g, "/"));
        if (bytes.length !== Math.ceil(count / 8)) {
            damaged("a set has another length than the crossbar");
        }
        const places = Array.from({ length: 8 * bytes.length }, (_, place) => place);
        return places.filter((place) => bytes.charCodeAt(place >> 3) >> (place & 7) & 1);
    }

    function readRun(text) {
        const [, from, to = from] = RUN.exec(text) || damaged(`"${text}" is no place`);
        const length = Number(to) - Number(from) + 1;
        return Array.from({ length: Math.max(0, length) }, (_, at) => Number(from) + at);
    }

    function readSet(text, count) {
        const places = text === "" ? [] : BITS.test(text) ? readBits(text, count) : text.split(",").flatMap(readRun);
        if (places.some((place) => place >= count)) {
            damaged("a place is beyond the crossbar");
        }
        return places;
    }

    // What was changed by hand before a slot: sets behind + and !, which add one and take one; a set may come several times.

    function writeEdits(edits, count) {
        const parts = [];
        for (const [sign, isTaken] of [["+", 1], ["!", -1]]) {
            for (let times = 1, places = [-1]; places.length > 0; times += 1) {
                const least = times;
                places = Array.from(edits).filter(([, by]) => by * isTaken >= least).map(([place]) => place);
                parts.push(...(places.length === 0 ? [] : [`${sign}${writeSet(places, count)}`]));
            }
        }
        return parts.join("");
    }

    function readEdits(text, count) {
        const edits = new Map();
        for (const [, sign, set] of text.matchAll(/([+!])([^+!]*)/g)) {
            readSet(set, count).forEach((place) => edits.set(place, (edits.get(place) || 0) + (sign === "+" ? 1 : -1)));
        }
        return edits;
    }

    /** `0:+3,4;7:!3`: the changes before slots 0 and 7. */
    function writeAllEdits(all, count) {
        const written = all.map((edits, slot) => [slot, edits]).filter(([, edits]) => edits.size > 0);
        return written.map(([slot, edits]) => `${slot}:${writeEdits(edits, count)}`).join(";");
    }

    function readAllEdits(text, slots, count) {
        const all = Array.from({ length: slots + 1 }, () => new Map());
        text.split(";").filter(Boolean).forEach((part) => {
            const [slot, edits = ""] = part.split(":");
            all[number(slot, 0, slots, "a slot")] = readEdits(edits, count);
        });
        return all;
    }

    function number(text, least, most, what) {
        if (!NUMBER.test(text || "") || Number(text) < least || Number(text) > most) {
            damaged(`${what} is "${text}"`);
        }
        return Number(text);
    }

    function oneOf(list, name, what) {
        return list.some((one) => one.name === name) ? name : damaged(`${what} is "${name}"`);
    }

    // Made traffic.

    /** The numbers of a pattern that are told: the weight alone where there is one. */
    function toldNumbers(pattern) {
        const { isWeighed } = viewer.trafficPattern(pattern);
        return Object.keys(TRAFFIC_LIMITS).filter((name) => name !== "weight" || isWeighed);
    }

    function writeTraffic(traffic) {
        return traffic === null ? []
            : [`traffic=${traffic.pattern}`, ...toldNumbers(traffic.pattern).map((name) => `${name}=${traffic[name]}`)];
    }

    function readTraffic(words) {
        if (!words.has("traffic")) {
            return null;
        }
        const traffic = { pattern: oneOf(TRAFFIC, words.get("traffic"), "traffic"), load: 0, weight: 0 };
        toldNumbers(traffic.pattern).forEach((name) => {
            traffic[name] = number(words.get(name), ...TRAFFIC_LIMITS[name], name);
        });
        return traffic;
    }

    // All of it.

    /** The fragment that holds a playground, or null where it would be too long. */
    function writeLink(model) {
        const { ports, rounds, rule, queues, begin, script, traffic, slot } = model;
        const count = ports * ports;
        const words = [`ports=${ports}`, `rounds=${rounds}`, `scheduler=${rule}`, `queues=${queues}`];
        ["grant", "accept"].filter((side) => begin[side].some((port) => port > 0))
            .forEach((side) => words.push(`${side}=${begin[side].join(",")}`));
        if (script.lines.length > 0) {
            words.push(`script=${script.lines.map((line) => writeSet(line, count)).join(";")}`);
            words.push(...(script.again === null ? [] : [`again=${script.again}`]));
        }
        words.push(...writeTraffic(traffic), `slots=${slot}`, `edits=${writeAllEdits(model.allEdits(), count)}`);
        const text = words.join("&");
        const whole = `#${text}&sum=${sumOf(text)}`;
        return whole.length > MOST_LETTERS ? null : whole;
    }

    function readBegin(words, ports) {
        const [grant, accept] = ["grant", "accept"].map((side) => {
            const list = words.has(side) ? words.get(side).split(",") : new Array(ports).fill("0");
            if (list.length !== ports) {
                damaged(`${side} has another number of pointers than there are ports`);
            }
            return list.map((text) => number(text, 0, ports - 1, `a pointer of ${side}`));
        });
        return { grant, accept };
    }

    function readLines(words, count) {
        if (!words.has("script")) {
            return viewer.NO_SCRIPT;
        }
        const lines = words.get("script").split(";").map((text) => readSet(text, count));
        const again = words.has("again") ? number(words.get("again"), 0, lines.length - 1, "again") : null;
        return { lines, again };
    }

    /**
     * Reads a fragment: the settings of the playground that it holds, and what was changed by hand before each of its slots.
     * Fails with FileFault where it is too long or damaged.
     */
    function readLink(hash) {
        if (hash.length > MOST_LETTERS) {
            damaged(`it has more than ${MOST_LETTERS} letters`);
        }
        const [, text, sum] = SUM.exec(hash.slice(1)) || damaged("its end is missing");
        if (sumOf(text) !== sum) {
            damaged("its sum is another");
        }
        // A plus sign stands for itself here.
        const words = new Map(text.split("&").map((word) => word.split(/=(.*)/)));
        const ports = number(words.get("ports"), 1, MAX_PORTS, "ports");
        const count = ports * ports;
        const slots = number(words.get("slots"), 0, viewer.MOST_SLOTS, "slots");
        const settings = {
            ports,
            rounds: number(words.get("rounds"), 1, MAX_ROUNDS, "rounds"),
            rule: oneOf(viewer.SCHEDULERS, words.get("scheduler"), "scheduler"),
            queues: oneOf(viewer.QUEUES, words.get("queues"), "queues"),
            begin: readBegin(words, ports),
            script: readLines(words, count),
            traffic: readTraffic(words),
        };
        return { settings, edits: readAllEdits(words.get("edits") || "", slots, count) };
    }

    Object.assign(viewer, { MOST_LINK_LETTERS: MOST_LETTERS, writeLink, readLink });
})(globalThis.SlotViewer = globalThis.SlotViewer || {});

// Reads a report: the summary, a line for each output and, with --slots, a line for each slot.
(function (viewer) {
    "use strict";

    const { FileFault, Matches, UNICAST, MULTICAST, LEVELS, MAX_PORTS, queueCode } = viewer;

    const LINE_FEED = 10;
    const SPACE = 32;
    const DIGIT_ZERO = 48;
    const SLOTS_A_STEP = 256;
    const MAX_ROUNDS = 64;
    /** No run has more slots, and none whose slots have lines has more than these. */
    const MAX_SLOTS = 2 ** 32 - 1;
    const MAX_LISTED_SLOTS = 262145;

    /** The lines of a summary that have one number, in order. */
    const SUMMARY_LINES = [
        "ports", "rounds", "depth", "slots", "packets", "oversize", "unrouted", "dropped",
        "forwarded", "copies", "cells",
    ];

    /** A place in a text of ASCII bytes. */
    class TextCursor {
        constructor(bytes) {
            this.bytes = bytes;
            this.at = 0;
            this.line = 1;
        }

        isAtEnd() {
            return this.at === this.bytes.length;
        }

        /** Fails at this place; at the end of the bytes the text is cut. */
        fail(expected) {
            const what = this.isAtEnd() ? "the report is cut" : "this is no line of a report";
            throw new FileFault(`line ${this.line}: ${what}; ${expected} is expected here`);
        }

        /** Passes a text where it stands here, and tells whether it did. */
        passes(text) {
            for (let k = 0; k < text.length; k += 1) {
                if (this.bytes[this.at + k] !== text.charCodeAt(k)) {
                    return false;
                }
            }
            this.at += text.length;
            return true;
        }

        /** Passes a text, which has to stand here. */
        pass(text) {
            for (let k = 0; k < text.length; k += 1, this.at += 1) {
                if (this.bytes[this.at] !== text.charCodeAt(k)) {
                    this.fail(`"${text.trim()}"`);
                }
            }
        }

        passLineEnd() {
            if (this.bytes[this.at] !== LINE_FEED) {
                this.fail("the end of the line");
            }
            this.at += 1;
            this.line += 1;
        }

        /** Passes a decimal number from `least` to `most`. */
        number(what, least, most) {
            const start = this.at;
            let value = 0;
            for (;;) {
                const digit = this.bytes[this.at] - DIGIT_ZERO;
                if (!(digit >= 0 && digit <= 9)) {
                    break;
                }
                value = 10 * value + digit;
                this.at += 1;
            }
            if (this.at === start) {
                this.fail(what);
            }
            if (value < least || value > most) {
                throw new FileFault(`line ${this.line}: ${what} is ${value}, and may be ${least} to ${most}`);
            }
            return value;
        }
    }

    function readSummary(cursor) {
        const limits = { ports: [1, MAX_PORTS], rounds: [1, MAX_ROUNDS], slots: [1, MAX_SLOTS] };
        const summary = {};
        for (const name of SUMMARY_LINES) {
            const [least, most] = limits[name] || [0, Number.MAX_SAFE_INTEGER];
            cursor.pass(`${name} `);
            summary[name] = cursor.number(`the number of ${name}`, least, most);
            cursor.passLineEnd();
        }
        cursor.pass("longest");
        summary.longest = [];
        for (let level = 0; level < LEVELS; level += 1) {
            cursor.pass(" ");
            summary.longest.push(cursor.number("a wait", 0, Number.MAX_SAFE_INTEGER));
        }
        cursor.passLineEnd();
        return summary;
    }

    function readOutputLines(cursor, ports) {
        const outputs = [];
        for (let output = 0; output < ports; output += 1) {
            cursor.pass("output ");
            cursor.number("the output", output, output);
            cursor.pass(" packets ");
            const packets = cursor.number("the number of packets", 0, Number.MAX_SAFE_INTEGER);
            cursor.pass(" cells ");
            const cells = cursor.number("the number of cells", 0, Number.MAX_SAFE_INTEGER);
            cursor.passLineEnd();
            outputs.push({ packets, cells });
        }
        return outputs;
    }

    const QUEUE_NUMBERS = ["packets", "dropped", "cells", "peak", "slot"];

    /** Reads a line `queue I>J:LK packets P dropped X cells C peak H slot S`, where J is `*` for multicast. */
    function readQueueLine(cursor, ports) {
        cursor.pass("queue ");
        const line = { input: cursor.number("an input", 0, ports - 1), output: null, kind: MULTICAST };
        cursor.pass(">");
        if (!cursor.passes("*")) {
            line.output = cursor.number("an output", 0, ports - 1);
            line.kind = UNICAST;
        }
        cursor.pass(":");
        line.level = cursor.number("a level", 0, LEVELS - 1);
        cursor.pass(line.kind === MULTICAST ? "m" : "u");
        for (const name of QUEUE_NUMBERS) {
            cursor.pass(` ${name} `);
            line[name] = cursor.number(`the number after ${name}`, 0, Number.MAX_SAFE_INTEGER);
        }
        cursor.passLineEnd();
        return line;
    }

    /** Reads the lines of the queues and `deepest`, where a report has them; else `deepest` is null. */
    function readQueueLines(cursor, ports) {
        const queues = [];
        while (startsWith(cursor, "queue ")) {
            queues.push(readQueueLine(cursor, ports));
        }
        let deepest = null;
        if (queues.length > 0 || startsWith(cursor, "d")) {
            const greatest = queues.reduce((most, { peak }) => Math.max(most, peak), 0);
            cursor.pass("deepest ");
            deepest = cursor.number("the greatest peak of a queue", greatest, greatest);
            cursor.passLineEnd();
        }
        return { queues, deepest };
    }

    /** Reads ` I>J:LK` for a J above `last`, and tells J. */
    function readPair(cursor, slot, last, matches) {
        cursor.pass(" ");
        const input = cursor.number("an input", 0, matches.ports - 1);
        cursor.pass(">");
        const output = cursor.number("an output that rises", last + 1, matches.ports - 1);
        cursor.pass(":");
        const level = cursor.number("a level", 0, LEVELS - 1);
        const isMulticast = cursor.passes("m");
        if (!isMulticast) {
            cursor.pass("u");
        }
        matches.set(slot, output, input, queueCode(level, isMulticast ? MULTICAST : UNICAST));
        return output;
    }

    function readSlotLine(cursor, slot, run) {
        cursor.pass("slot ");
        cursor.number("the slot", slot, slot);
        cursor.pass(" used ");
        run.used[slot] = cursor.number("the number of rounds used", 0, run.rounds);
        cursor.pass(" first ");
        run.first[slot] = cursor.number("the number of outputs of the first round", 0, run.ports);
        let last = -1;
        while (cursor.bytes[cursor.at] === SPACE) {
            last = readPair(cursor, slot, last, run.matches);
        }
        cursor.passLineEnd();
    }

    /** Reads the lines of the output-queued reference, where a report ends with them. */
    function readReferenceLines(cursor, ports) {
        const lines = [];
        for (let output = 0; output < ports; output += 1) {
            cursor.pass("reference ");
            cursor.number("the output", output, output);
            const line = {};
            for (const name of ["ends", "runs", "lead", "extra"]) {
                cursor.pass(` ${name} `);
                line[name] = cursor.number(`the number after ${name}`, 0, Number.MAX_SAFE_INTEGER);
            }
            cursor.passLineEnd();
            lines.push(line);
        }
        return lines;
    }

    function startsWith(cursor, text) {
        const start = cursor.at;
        const found = cursor.passes(text);
        cursor.at = start;
        return found;
    }

    /**
     * A generator that reads the bytes of a report and returns the run; it yields its progress.
     * Where the report has no slot lines the run has `matches` null. Throws FileFault with the
     * line and what is wrong there.
     */
    function* readReport(bytes) {
        const cursor = new TextCursor(bytes);
        const summary = readSummary(cursor);
        const { ports, rounds, slots } = summary;
        const outputs = readOutputLines(cursor, ports);
        const { queues, deepest } = readQueueLines(cursor, ports);
        const run = { form: "report", ports, rounds, slots, summary, outputs, queues, deepest, matches: null, reference: [] };
        if (startsWith(cursor, "s")) {
            if (slots > MAX_LISTED_SLOTS) {
                throw new FileFault(`line ${cursor.line}: a run of ${slots} slots has no slot lines`);
            }
            run.matches = new Matches(ports, slots);
            run.used = new Uint8Array(slots);
            run.first = new Uint8Array(slots);
            for (let slot = 0; slot < slots; slot += 1) {
                readSlotLine(cursor, slot, run);
                if (slot % SLOTS_A_STEP === 0) {
                    yield slot / slots;
                }
            }
        }
        if (startsWith(cursor, "r")) {
            run.reference = readReferenceLines(cursor, ports);
        }
        if (!cursor.isAtEnd()) {
            cursor.fail("the end of the report");
        }
        return run;
    }

    Object.assign(viewer, { readReport, MAX_LISTED_SLOTS });
})(globalThis.SlotViewer = globalThis.SlotViewer || {});

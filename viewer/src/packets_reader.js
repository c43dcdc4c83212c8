// Reads a packets file: where each packet of a run went, and when it arrived and departed.
(function (viewer) {
    "use strict";

    const { FileFault, UNICAST, MULTICAST, LEVELS, MAX_PORTS } = viewer;

    const HEADER = "input,packet,bytes,cells,state,level,kind,output,arrival,departure,delay";
    const MAX_BYTES = 134217728;
    const MAX_NUMBER = 4294967295;
    const LINES_A_STEP = 512;
    const LINE_FEED = 10;
    /** By state whether its rows have a level, a kind and an output, and whether they have a departure. */
    const STATES = {
        forwarded: { isRouted: true, departs: true },
        dropped: { isRouted: true, departs: false },
        unrouted: { isRouted: false, departs: false },
        oversize: { isRouted: false, departs: false },
    };

    function isPacketsFile(bytes) {
        return Array.from(HEADER).every((letter, at) => bytes[at] === letter.charCodeAt(0));
    }

    function fault(line, what) {
        throw new FileFault(`line ${line}: ${what}`);
    }

    function readNumber(text, line, column, least, most) {
        if (!/^\d{1,10}$/.test(text)) {
            fault(line, `the ${column} is "${text}", and a number is expected`);
        }
        const value = Number(text);
        if (value < least || value > most) {
            fault(line, `the ${column} is ${value}, and may be ${least} to ${most}`);
        }
        return value;
    }

    function needEmpty(texts, line, state) {
        if (texts.some((text) => text !== "")) {
            fault(line, `a row of the state ${state} has an entry that it may not have`);
        }
    }

    /** One row: what all rows of its packet have, and its output with its departure. */
    function readRow(text, line) {
        const fields = text.split(",");
        if (fields.length !== HEADER.split(",").length) {
            fault(line, `there are ${fields.length} fields, and 11 are expected`);
        }
        const [input, packet, bytes, cells, state, level, kind, output, arrival, departure, delay] = fields;
        if (!Object.prototype.hasOwnProperty.call(STATES, state)) {
            fault(line, `the state is "${state}"`);
        }
        const { isRouted, departs } = STATES[state];
        const number = (value, column, most) => readNumber(value, line, column, 0, most);
        const row = {
            input: number(input, "input", MAX_PORTS - 1),
            packet: number(packet, "packet", MAX_NUMBER),
            bytes: number(bytes, "number of bytes", MAX_NUMBER),
            cells: readNumber(cells, line, "number of cells", 1, MAX_NUMBER),
            state,
            arrival: number(arrival, "arrival", MAX_NUMBER),
        };
        needEmpty(isRouted ? [] : [level, kind, output], line, state);
        needEmpty(departs ? [] : [departure, delay], line, state);
        if (isRouted) {
            if (kind !== "u" && kind !== "m") {
                fault(line, `the kind is "${kind}"`);
            }
            row.level = number(level, "level", LEVELS - 1);
            row.kind = kind === "u" ? UNICAST : MULTICAST;
            row.output = number(output, "output", MAX_PORTS - 1);
        }
        if (departs) {
            row.departure = readNumber(departure, line, "departure", row.arrival + 1, MAX_NUMBER);
            if (number(delay, "delay", MAX_NUMBER) !== row.departure - row.arrival) {
                fault(line, "the delay is not the departure less the arrival");
            }
        }
        return row;
    }

    /** The packets by rising input and number, each with its outputs. */
    class Packets {
        constructor() {
            this.form = "packets";
            this.list = [];
            /** The number of ports that the file names at least. */
            this.ports = 1;
        }

        add(row, line) {
            const last = this.list[this.list.length - 1];
            const { output, departure } = row;
            const isMore = last !== undefined && last.input === row.input && last.packet === row.packet;
            const follows = last === undefined || row.input > last.input || (row.input === last.input && row.packet > last.packet);
            if (isMore ? !isSamePacket(last, row) || !(output > last.outputs[last.outputs.length - 1]) : !follows) {
                fault(line, "the row does not follow the one before");
            }
            this.ports = Math.max(this.ports, row.input + 1, (output || 0) + 1);
            const outputs = output === undefined ? [] : [output];
            const departures = departure === undefined ? [] : [departure];
            if (isMore) {
                last.outputs.push(...outputs);
                last.departures.push(...departures);
            } else {
                const { input, packet, bytes, cells, state, level, kind, arrival } = row;
                this.list.push({ input, packet, bytes, cells, state, level, kind, arrival, outputs, departures });
            }
        }

        /** The packet of an input with this number, or null. */
        find(input, packet) {
            const found = this.list.find((one) => one.input === input && one.packet === packet);
            return found === undefined ? null : found;
        }
    }

    function isSamePacket(one, other) {
        return ["state", "level", "kind", "arrival", "bytes", "cells"].every((name) => one[name] === other[name])
            && other.kind === MULTICAST;
    }

    /**
     * A generator that reads the bytes of a packets file and returns its packets; it yields its
     * progress. Throws FileFault with the line and what is wrong there.
     */
    function* readPackets(bytes) {
        if (bytes.length > MAX_BYTES) {
            throw new FileFault(`this packets file has ${bytes.length} bytes, and no more than ${MAX_BYTES} are shown`);
        }
        const packets = new Packets();
        const decoder = new TextDecoder("latin1");
        let line = 1;
        for (let at = 0; at < bytes.length; line += 1) {
            const end = bytes.indexOf(LINE_FEED, at);
            if (end < 0) {
                fault(line, "the file is cut");
            }
            const text = decoder.decode(bytes.subarray(at, end));
            at = end + 1;
            if (line > 1) {
                packets.add(readRow(text, line), line);
            } else if (text !== HEADER) {
                fault(line, "the columns are not those of a packets file");
            }
            if (line % LINES_A_STEP === 0) {
                yield at / bytes.length;
            }
        }
        return packets;
    }

    viewer.isPacketsFile = isPacketsFile;
    viewer.readPackets = readPackets;
})(globalThis.SlotViewer = globalThis.SlotViewer || {});

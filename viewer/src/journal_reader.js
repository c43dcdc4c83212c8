// Reads a journal file: what each input posted and what was matched, slot by slot.
(function (viewer) {
    "use strict";

    const { FileFault, Matches, FREE, LEVELS, MAX_PORTS } = viewer;

    const MAGIC = [0x54, 0x54, 0x4a, 0x31];
    const MAX_BYTES = 134217728;
    const MAX_ROUNDS = 64;
    const MAX_SLOTS = 262145;
    /** The greatest number of slots for more than 32 ports. */
    const MAX_SLOTS_OF_MANY_PORTS = 131073;
    const HEADER_BYTES = 12;
    const SETS_OF_A_POST = 2 * LEVELS;
    const SET_BYTES = 8;
    const SLOTS_A_STEP = 64;

    function isJournal(bytes) {
        return MAGIC.every((byte, at) => bytes[at] === byte);
    }

    /** Fails at a place of the file, named as `tiny_tera check` names it. */
    function bad(at, what) {
        throw new FileFault(`bad at byte ${at}: ${what}`);
    }

    /** The bytes of a journal with a place in them. */
    class ByteCursor {
        constructor(bytes) {
            this.bytes = bytes;
            this.view = new DataView(bytes.buffer, bytes.byteOffset, bytes.byteLength);
            this.at = 0;
        }

        need(count, where) {
            if (this.at + count > this.bytes.length) {
                bad(this.at, `the journal is cut in ${where()}`);
            }
        }

        /** Passes a byte from `least` to `most`. */
        byte(least, most, what, where) {
            this.need(1, where);
            const value = this.bytes[this.at];
            if (value < least || value > most) {
                bad(this.at, `${what} is ${value} in ${where()}, and may be ${least} to ${most}`);
            }
            this.at += 1;
            return value;
        }

        /** Passes a set of ports that is not empty and has ports below `ports` alone. */
        set(ports, where) {
            this.need(SET_BYTES, where);
            const high = this.view.getUint32(this.at);
            const low = this.view.getUint32(this.at + 4);
            const lowBeyond = ports < 32 ? low >>> ports : 0;
            const highBeyond = ports <= 32 ? high : ports < 64 ? high >>> (ports - 32) : 0;
            if ((low | high) === 0) {
                bad(this.at, `a set is empty in ${where()}`);
            }
            if ((lowBeyond | highBeyond) !== 0) {
                bad(this.at, `a set names a port beyond ${ports - 1} in ${where()}`);
            }
            this.at += SET_BYTES;
        }
    }

    function readHeader(cursor) {
        const where = () => "the header";
        if (!isJournal(cursor.bytes)) {
            bad(0, "a journal begins with TTJ1");
        }
        cursor.at = MAGIC.length;
        const ports = cursor.byte(1, MAX_PORTS, "the number of ports", where);
        const rounds = cursor.byte(1, MAX_ROUNDS, "the number of rounds", where);
        cursor.need(2, where);
        if (cursor.view.getUint16(cursor.at) !== 0) {
            bad(cursor.at, "two bytes of the header have to be 0");
        }
        cursor.at += 2;
        cursor.need(4, where);
        const slots = cursor.view.getUint32(cursor.at);
        const most = ports > 32 ? MAX_SLOTS_OF_MANY_PORTS : MAX_SLOTS;
        if (slots < 1 || slots > most) {
            bad(cursor.at, `the number of slots is ${slots}, and may be 1 to ${most}`);
        }
        cursor.at = HEADER_BYTES;
        return { ports, rounds, slots };
    }

    /** Passes the posts of a slot. */
    function passPosts(cursor, ports, slot) {
        let input = 0;
        const where = () => `the post of input ${input} in slot ${slot}`;
        for (input = 0; input < ports; input += 1) {
            const sets = cursor.byte(0, 255, "", where);
            cursor.byte(0, 1, "the mark that more is to come", where);
            for (let bit = 0; bit < SETS_OF_A_POST; bit += 1) {
                if (sets >> bit & 1) {
                    cursor.set(ports, where);
                }
            }
        }
    }

    /** Passes the match of a slot and keeps it. */
    function readMatch(cursor, slot, matches) {
        let output = 0;
        const where = () => `the match of output ${output} in slot ${slot}`;
        for (output = 0; output < matches.ports; output += 1) {
            cursor.need(1, where);
            const isFree = cursor.bytes[cursor.at] === FREE;
            const [least, most] = isFree ? [FREE, FREE] : [0, matches.ports - 1];
            const input = cursor.byte(least, most, "the input", where);
            const queue = cursor.byte(0, isFree ? 0 : SETS_OF_A_POST - 1, "the level and kind", where);
            matches.set(slot, output, input, queue);
        }
    }

    /** The rows of one slot: for each input, kind and level a set of outputs; and the marks `more`. */
    class Rows {
        constructor(ports) {
            this.ports = ports;
            /** Words of sets: see place(). */
            this.words = new Int32Array(ports * SETS_OF_A_POST * 2);
            this.more = new Uint8Array(ports);
        }

        /** Where the low word of a set stands; the high word follows it. */
        place(input, kind, level) {
            return ((input * 2 + kind) * LEVELS + level) * 2;
        }
    }

    class Journal {
        constructor(bytes, header) {
            this.form = "journal";
            this.ports = header.ports;
            this.rounds = header.rounds;
            this.slots = header.slots;
            this.bytes = bytes;
            this.view = new DataView(bytes.buffer, bytes.byteOffset, bytes.byteLength);
            /** Where the posts of each slot begin. */
            this.starts = new Uint32Array(header.slots);
            this.matches = new Matches(header.ports, header.slots);
        }

        /** Fills `rows` with the rows of a slot. */
        readRows(slot, rows) {
            let at = this.starts[slot];
            rows.words.fill(0);
            for (let input = 0; input < this.ports; input += 1) {
                const sets = this.bytes[at];
                rows.more[input] = this.bytes[at + 1];
                at += 2;
                for (let rest = sets; rest !== 0; rest &= rest - 1) {
                    // Bit 0 to 3 is the unicast set of a level, bit 4 to 7 the multicast set.
                    const place = (input * SETS_OF_A_POST + viewer.portSets.lowestBit(rest)) * 2;
                    rows.words[place] = this.view.getInt32(at + 4);
                    rows.words[place + 1] = this.view.getInt32(at);
                    at += SET_BYTES;
                }
            }
        }
    }

    /**
     * A generator that reads the bytes of a journal file and returns the journal; it yields its
     * progress. Throws FileFault with the byte of the first field that is not whole or has a
     * value that it may not have, or of the first byte after the last slot.
     */
    function* readJournal(bytes) {
        if (bytes.length > MAX_BYTES) {
            throw new FileFault(`a journal has at most ${MAX_BYTES} bytes, and this one has ${bytes.length}`);
        }
        const cursor = new ByteCursor(bytes);
        const journal = new Journal(bytes, readHeader(cursor));
        for (let slot = 0; slot < journal.slots; slot += 1) {
            journal.starts[slot] = cursor.at;
            passPosts(cursor, journal.ports, slot);
            readMatch(cursor, slot, journal.matches);
            if (slot % SLOTS_A_STEP === 0) {
                yield slot / journal.slots;
            }
        }
        if (cursor.at < bytes.length) {
            bad(cursor.at, `there are ${bytes.length - cursor.at} bytes after the last slot`);
        }
        return journal;
    }

    viewer.Rows = Rows;
    viewer.isJournal = isJournal;
    viewer.readJournal = readJournal;
})(globalThis.SlotViewer = globalThis.SlotViewer || {});

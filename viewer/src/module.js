// The proved scheduler as a WebAssembly module, in the place of the scheduler by script where the browser can run it.
//
// Its memory is 64-bit, so addresses and lengths are BigInts; a browser without such memories refuses it.
(function (viewer) {
    "use strict";

    const { LEVELS, MAX_PORTS, FREE, queueCode } = viewer;

    const MAX_ROUNDS = 64;
    const DONE = 0;
    /** In the place of an input: the output is free. */
    const NONE = 0xffffffff;
    const PAGE_BYTES = 65536;
    /** What the calls read and write, in bytes: the rows, the pointers, the feeds, the numbers of rounds. */
    const ROW_BYTES = 64;
    const TABLE_WORDS = LEVELS * MAX_PORTS;
    const POINTER_WORDS = 2 * TABLE_WORDS + LEVELS;
    const FEED_WORDS = 3;
    const ROUNDS_WORDS = 3;
    const VERSION = 1;

    /** The module's calls by the names of the schedulers. */
    const CALLS = { islip: "tiny_tera_decide", firm: "tiny_tera_decide_firm", rrm: "tiny_tera_decide_rrm" };

    /** Grows a memory by one page, and answers how many it had; older engines take the number of pages as a plain one. */
    function grow(memory) {
        try {
            return Number(memory.grow(1n));
        } catch {
            return memory.grow(1);
        }
    }

    /** The module, with places in its memory for the arguments of a call. */
    class Module {
        constructor(exports) {
            this.exports = exports;
            // One page more than the module has of its own, for what is passed.
            const start = grow(exports.memory) * PAGE_BYTES;
            const { buffer } = exports.memory;
            this.rows = new Int32Array(buffer, start, MAX_PORTS * ROW_BYTES / 4);
            this.pointers = new Uint32Array(buffer, start + this.rows.byteLength, POINTER_WORDS);
            this.feeds = new Uint32Array(buffer, this.pointers.byteOffset + this.pointers.byteLength, FEED_WORDS * MAX_PORTS);
            this.used = new Uint32Array(buffer, this.feeds.byteOffset + this.feeds.byteLength, ROUNDS_WORDS);
        }

        /** Decides a slot from what stands in `rows` and `pointers`; whether the module took it. */
        decide(rule, ports, rounds, slot) {
            const length = BigInt(ports);
            const at = (words) => BigInt(words.byteOffset);
            const status = this.exports[CALLS[rule]](ports, rounds, slot, at(this.rows), length, at(this.pointers),
                at(this.feeds), length, at(this.used));
            return status === DONE;
        }
    }

    /** The scheduler of the module, with the fields and the call of viewer.Scheduler; `rule` is a name of CALLS. */
    class ModuleScheduler {
        constructor(module, ports, rounds, rule = "islip") {
            if (!(ports >= 1 && ports <= MAX_PORTS && rounds >= 1 && rounds <= MAX_ROUNDS && rule in CALLS)) {
                throw new RangeError(`no scheduler ${rule} of ${ports} ports and ${rounds} rounds`);
            }
            this.module = module;
            this.ports = ports;
            this.rounds = rounds;
            this.rule = rule;
            this.isProved = true;
            /** As those of viewer.Scheduler. */
            this.inputs = new Uint8Array(ports).fill(FREE);
            this.queues = new Uint8Array(ports);
            this.used = 0;
            this.first = 0;
            this.lastAdded = 0;
        }

        /** Decides a slot over its rows, and moves the pointers as the slot moves them. */
        decide(slot, rows, pointers) {
            const { module, ports } = this;
            // Both have for each input the sets of unicast and then of multicast, by level, the low word first.
            module.rows.set(rows.words);
            this.eachTable(pointers, (words, table) => words.set(table));
            if (!module.decide(this.rule, ports, this.rounds, slot)) {
                throw new RangeError(`slot ${slot} was refused: a row or a pointer is beyond the ports`);
            }
            this.eachTable(pointers, (words, table) => table.set(words));
            this.readMatch();
        }

        /** Calls `move` with the words of each level's pointers in the module, and with the same pointers here. */
        eachTable(pointers, move) {
            const { ports } = this;
            const words = this.module.pointers;
            for (let level = 0; level < LEVELS; level += 1) {
                const start = MAX_PORTS * level;
                const [from, to] = [ports * level, ports * (level + 1)];
                move(words.subarray(start, start + ports), pointers.grant.subarray(from, to));
                move(words.subarray(TABLE_WORDS + start, TABLE_WORDS + start + ports), pointers.accept.subarray(from, to));
            }
            move(words.subarray(2 * TABLE_WORDS, POINTER_WORDS), pointers.shared);
        }

        readMatch() {
            const { feeds, used } = this.module;
            for (let output = 0; output < this.ports; output += 1) {
                const at = FEED_WORDS * output;
                const isFree = feeds[at] === NONE;
                this.inputs[output] = isFree ? FREE : feeds[at];
                this.queues[output] = isFree ? 0 : queueCode(feeds[at + 1], feeds[at + 2]);
            }
            [this.used, this.first, this.lastAdded] = used;
        }
    }

    /** The module of viewer.moduleText; null where there is none, or the browser cannot run it. */
    async function loadModule() {
        try {
            const bytes = Uint8Array.from(atob(viewer.moduleText), (letter) => letter.charCodeAt(0));
            const { instance } = await WebAssembly.instantiate(bytes, {});
            return instance.exports.tiny_tera_version() === VERSION ? new Module(instance.exports) : null;
        } catch {
            return null;
        }
    }

    /** Whether the module decides slots of this rule. */
    function isProved(module, rule) {
        return module !== null && rule in CALLS;
    }

    /** The proved scheduler where there is a module that has this rule, and else the one by script. */
    function makeScheduler(module, ports, rounds, rule = "islip") {
        return isProved(module, rule) ? new ModuleScheduler(module, ports, rounds, rule) : new viewer.Scheduler(ports, rounds, rule);
    }

    viewer.MAX_ROUNDS = MAX_ROUNDS;
    viewer.ModuleScheduler = ModuleScheduler;
    viewer.loadModule = loadModule;
    viewer.isProved = isProved;
    viewer.makeScheduler = makeScheduler;
})(globalThis.SlotViewer = globalThis.SlotViewer || {});

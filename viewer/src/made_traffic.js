// Made traffic: what comes to each input in each slot, the same for the same seed. These are the random numbers and the rules
// of the program `simulate` (docs/SIMULATE.md).
(function (viewer) {
    "use strict";

    const MILLION = 1000000;
    /** The numbers below this one are the halves of a random word. */
    const HALF = 2 ** 32;
    const HALF_BITS = 32n;
    const WORD_BITS = 64;
    const STREAMS_OF_A_SEED = 256n;
    /** The least and the most of each number of a traffic; shares are in millionths. */
    const TRAFFIC_LIMITS = { load: [0, MILLION], weight: [0, MILLION], burst: [1, 4096], seed: [0, 1000000000], depth: [1, 4096] };

    function word64(number) {
        return BigInt.asUintN(WORD_BITS, number);
    }

    /** A stream of random words of 64 bits: SplitMix64, from its first word when it begins at 256 * seed + number. */
    class Stream {
        constructor(seed, number) {
            this.state = STREAMS_OF_A_SEED * BigInt(seed) + BigInt(number);
            this.state = this.next();
        }

        next() {
            this.state = word64(this.state + 0x9e3779b97f4a7c15n);
            let word = this.state;
            word = word64((word ^ (word >> 30n)) * 0xbf58476d1ce4e5b9n);
            word = word64((word ^ (word >> 27n)) * 0x94d049bb133111ebn);
            return word ^ (word >> 31n);
        }

        /** The two halves of the next word. */
        nextHalves() {
            const word = this.next();
            return { high: Number(word >> HALF_BITS), low: Number(BigInt.asUintN(Number(HALF_BITS), word)) };
        }
    }

    function leadingZeros({ high, low }) {
        return high > 0 ? Math.clz32(high) : 32 + Math.clz32(low);
    }

    function anyOutput({ low }, { ports }) {
        return Math.floor(low * ports / HALF);
    }

    /** Whether the share of bursts that the weight names has this one. */
    function isWithinWeight({ high }, { weight }) {
        return high * MILLION < weight * HALF;
    }

    /** The patterns of traffic: the output of a burst that begins at an input, by the halves of a random word. */
    const TRAFFIC = [
        { name: "uniform", isWeighed: false, output: (word, _, job) => anyOutput(word, job) },
        { name: "diagonal", isWeighed: false, output: ({ high }, input, { ports }) => (high * 3 < 2 * HALF ? input : (input + 1) % ports) },
        { name: "log-diagonal", isWeighed: false, output: (word, input, { ports }) => (input + leadingZeros(word)) % ports },
        { name: "hot-spot", isWeighed: true, output: (word, _, job) => (isWithinWeight(word, job) ? 0 : anyOutput(word, job)) },
        { name: "unbalanced", isWeighed: true, output: (word, input, job) => (isWithinWeight(word, job) ? input : anyOutput(word, job)) },
    ];

    function trafficPattern(name) {
        return TRAFFIC.find((one) => one.name === name);
    }

    /** The traffic of an input: in each slot of a burst a cell comes, and all cells of a burst go to one output. */
    class Source {
        constructor(job, input) {
            this.job = job;
            this.input = input;
            this.stream = new Stream(job.seed, input);
            const { load, burst } = job;
            // A burst begins where half a word times `scale` is below `limit`; the product has up to 64 bits.
            this.scale = BigInt(load + burst * (MILLION - load));
            this.limit = BigInt(load) << HALF_BITS;
            /** The output of the burst that is under way, or null. */
            this.output = null;
        }

        /** The output of the cell that comes in the next slot, or null. */
        next() {
            const { high, low } = this.stream.nextHalves();
            const goesOn = this.output !== null && high * this.job.burst >= HALF;
            if (!goesOn) {
                this.output = BigInt(low) * this.scale < this.limit ? this.begin() : null;
            }
            return this.output;
        }

        begin() {
            return trafficPattern(this.job.pattern).output(this.stream.nextHalves(), this.input, this.job);
        }
    }

    class MadeTraffic {
        /** The traffic of so many inputs: its seed, its pattern, its load and weight in millionths, and the mean cells of a burst. */
        constructor({ seed, pattern, load, weight, burst }, ports) {
            const job = { seed, pattern, load, weight, burst, ports };
            this.sources = Array.from({ length: ports }, (_, input) => new Source(job, input));
            /** By slot what comes, as far as it was asked for: slots can be gone back and on again. */
            this.made = [];
        }

        /** By input the output of the cell that comes in a slot, or null. */
        coming(slot) {
            while (this.made.length <= slot) {
                this.made.push(this.sources.map((source) => source.next()));
            }
            return this.made[slot];
        }
    }

    Object.assign(viewer, { MILLION, TRAFFIC, TRAFFIC_LIMITS, trafficPattern, RandomStream: Stream, MadeTraffic });
})(globalThis.SlotViewer = globalThis.SlotViewer || {});

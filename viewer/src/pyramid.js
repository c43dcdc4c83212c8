// Numbers of all slots, with their sums or maxima over blocks of slots, for drawing at any scale.
(function (viewer) {
    "use strict";

    const BLOCK_BITS = 3;
    const BLOCK = 1 << BLOCK_BITS;

    /** For each slot and each of some lanes a number, 0 until it is set, which happens once. */
    class Pyramid {
        /**
         * `mode` is "sum" or "max"; `Numbers` is the type of array that holds one slot's numbers.
         */
        constructor(slots, lanes, mode, Numbers) {
            this.slots = slots;
            this.lanes = lanes;
            this.isSum = mode === "sum";
            this.tiers = [new Numbers(slots * lanes)];
            /** The greatest number that one slot can have. */
            this.most = 2 ** (8 * Numbers.BYTES_PER_ELEMENT) - 1;
            for (let length = slots; length > 1;) {
                length = Math.ceil(length / BLOCK);
                this.tiers.push(new Uint32Array(length * lanes));
            }
        }

        /** Sets a number; one over the greatest of the array type counts as that. */
        set(slot, lane, value) {
            const kept = Math.min(value, this.most);
            if (kept === 0) {
                return;
            }
            let index = slot;
            for (const tier of this.tiers) {
                const place = index * this.lanes + lane;
                if (this.isSum) {
                    tier[place] += kept;
                } else if (tier[place] < kept) {
                    tier[place] = kept;
                } else {
                    return;
                }
                index >>= BLOCK_BITS;
            }
        }

        /** For each lane the sum or the greatest of its numbers from slot `from` up to before slot `to`. */
        over(from, to, totals = new Uint32Array(this.lanes)) {
            totals.fill(0);
            let at = from;
            while (at < to) {
                let tier = 0;
                let size = 1;
                while (at % (size * BLOCK) === 0 && at + size * BLOCK <= to && tier + 1 < this.tiers.length) {
                    size *= BLOCK;
                    tier += 1;
                }
                this.addBlock(this.tiers[tier], at / size, totals);
                at += size;
            }
            return totals;
        }

        addBlock(tier, index, totals) {
            const start = index * this.lanes;
            for (let lane = 0; lane < this.lanes; lane += 1) {
                const value = tier[start + lane];
                totals[lane] = this.isSum ? totals[lane] + value : Math.max(totals[lane], value);
            }
        }

        /** The greatest number of all; the greatest sum of a lane in the mode "sum". */
        greatest() {
            return this.over(0, this.slots).reduce((most, total) => Math.max(most, total), 0);
        }
    }

    viewer.Pyramid = Pyramid;
})(globalThis.SlotViewer = globalThis.SlotViewer || {});

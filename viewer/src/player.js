// Goes through the slots at a speed.
(function (viewer) {
    "use strict";

    /** After a pause of the page, as in a hidden tab, no more than this is made good. */
    const MOST_CATCH_UP_MS = 250;

    class Player {
        /** `onAdvance` is told by how many slots to go on, and answers whether there are more. */
        constructor(onAdvance, onChange) {
            this.onAdvance = onAdvance;
            this.onChange = onChange;
            /** Slots a second. */
            this.speed = 2;
            this.isPlaying = false;
        }

        toggle() {
            if (this.isPlaying) {
                this.stop();
            } else {
                this.start();
            }
        }

        start() {
            this.isPlaying = true;
            this.owed = 0;
            this.before = performance.now();
            this.onChange();
            requestAnimationFrame((now) => this.frame(now));
        }

        stop() {
            if (this.isPlaying) {
                this.isPlaying = false;
                this.onChange();
            }
        }

        frame(now) {
            if (!this.isPlaying) {
                return;
            }
            this.owed += Math.min(MOST_CATCH_UP_MS, Math.max(0, now - this.before)) * this.speed / 1000;
            this.before = now;
            const steps = Math.floor(this.owed);
            this.owed -= steps;
            if (steps > 0 && !this.onAdvance(steps)) {
                this.stop();
                return;
            }
            requestAnimationFrame((next) => this.frame(next));
        }
    }

    viewer.Player = Player;
})(globalThis.SlotViewer = globalThis.SlotViewer || {});

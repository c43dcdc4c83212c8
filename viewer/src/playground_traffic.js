// The fields of made traffic in the playground, and what is told of its cells.
(function (viewer) {
    "use strict";

    const { MILLION, TRAFFIC, TRAFFIC_LIMITS } = viewer;

    const NONE = "none";
    /** The traffic's numbers that are whole ones, each with its field's name and what it is where the field has no number. */
    const WHOLE = { burst: 1, seed: 1, depth: TRAFFIC_LIMITS.depth[1] };
    /** Those that are shares from 0 to 1. */
    const SHARES = { load: 900000, weight: 500000 };
    const MOST_SLOTS_DRAWN = 400;
    const CHART_HEIGHT = 70;
    const CHART_FOOT = 4;

    const by = (id) => document.getElementById(id);
    const field = (name) => by(`traffic-${name}`);

    function fillTraffic() {
        by("traffic").append(...[NONE, ...TRAFFIC.map(({ name }) => name)].map((name) => new Option(name, name)));
    }

    /** A share from 0 to 1 as millionths. */
    function millionths(text, otherwise) {
        const share = Number(text);
        return text.trim() === "" || Number.isNaN(share) ? otherwise : Math.max(0, Math.min(MILLION, Math.round(share * MILLION)));
    }

    function shareText(share) {
        return `${share / MILLION}`;
    }

    /** The traffic that the fields tell, or null. */
    function chosenTraffic() {
        const pattern = by("traffic").value;
        if (pattern === NONE) {
            return null;
        }
        const { isWeighed } = viewer.trafficPattern(pattern);
        const shares = Object.entries(SHARES).map(([name, otherwise]) => [name, millionths(field(name).value, otherwise)]);
        const whole = Object.entries(WHOLE).map(([name, otherwise]) => [name, viewer.within(field(name).value, ...TRAFFIC_LIMITS[name], otherwise)]);
        const traffic = { pattern, ...Object.fromEntries([...shares, ...whole]) };
        return { ...traffic, weight: isWeighed ? traffic.weight : 0 };
    }

    /** Makes the traffic that the fields tell. From none to some, and back, the playground begins anew. */
    function changeTraffic(page) {
        const traffic = chosenTraffic();
        const { model } = page;
        if (traffic !== null && model.traffic !== null) {
            page.change({ traffic }, trafficText(traffic), "with the same changes by hand");
            return;
        }
        page.matches = [];
        const made = model.like({ traffic, script: viewer.NO_SCRIPT });
        if (traffic === null) {
            viewer.loadPattern(made, viewer.chosenPattern());
        }
        page.replace(made, traffic === null ? "No traffic is made any more." : "Traffic is made, and queues were empty before slot 0.");
    }

    function trafficText({ pattern, load }) {
        return `${pattern} traffic of load ${shareText(load)}`;
    }

    /** What the fields of the traffic do when they are changed. */
    const TRAFFIC_CHANGES = {
        traffic: changeTraffic,
        ...Object.fromEntries([...Object.keys(WHOLE), ...Object.keys(SHARES)].map((name) => [`traffic-${name}`, changeTraffic])),
        "traffic-slider": changeTraffic,
    };

    /** The slider shows its load in the field beside it while it moves. */
    function watchSlider() {
        field("slider").addEventListener("input", () => {
            field("load").value = shareText(millionths(field("slider").value, 0));
        });
    }

    /** Shows the traffic in its fields; without traffic they keep what they have. */
    function showTraffic({ traffic }) {
        by("traffic").value = traffic === null ? NONE : traffic.pattern;
        by("traffic-part").hidden = traffic === null;
        by("queues").disabled = traffic !== null;
        if (traffic === null) {
            return;
        }
        const { isWeighed } = viewer.trafficPattern(traffic.pattern);
        field("weight").parentElement.hidden = !isWeighed;
        Object.keys(WHOLE).forEach((name) => { field(name).value = traffic[name]; });
        Object.keys(SHARES).filter((name) => name !== "weight" || isWeighed).forEach((name) => { field(name).value = shareText(traffic[name]); });
        field("slider").value = shareText(traffic.load);
    }

    /** What became of the cells up to the slot that was decided last, as `simulate` counts it. */
    function sumsText({ sums }) {
        const { arrived, dropped, departed, waiting, delays } = sums;
        const mean = departed === 0 ? "" : ` Mean delay so far: ${delays} / ${departed} = ${(delays / departed).toFixed(2)} slots.`;
        return `${viewer.counted(arrived, "cell")} came: ${departed} left, ${waiting} wait, ${dropped} dropped at full queues.${mean}`;
    }

    /** Draws how many cells waited at the end of each of the last slots. */
    function drawWaiting({ history, slot }) {
        const shown = history.slice(-MOST_SLOTS_DRAWN).map((done) => ({ slot: done.slot, waiting: done.sums.waiting }));
        const most = d3.max(shown, ({ waiting }) => waiting) || 0;
        const svg = d3.select("#waiting-chart");
        const across = d3.scaleLinear([Math.max(0, slot - MOST_SLOTS_DRAWN), Math.max(slot - 1, 1)], [0, svg.node().clientWidth]);
        const up = d3.scaleLinear([0, Math.max(1, most)], [CHART_HEIGHT - CHART_FOOT, CHART_FOOT]);
        const area = d3.area().x((one) => across(one.slot)).y0(up(0)).y1((one) => up(one.waiting));
        svg.attr("height", CHART_HEIGHT).attr("aria-label", `Cells that wait, slot by slot: ${most} at most`);
        svg.selectAll("path").data([shown]).join("path").attr("d", area);
        by("waiting-most").textContent = `Cells that wait, over the last ${viewer.counted(shown.length, "slot")}: ${most} at most`;
    }

    /** Tells of the cells, where queues hold cells. */
    function showSums(model) {
        by("sums").hidden = !model.isCounted || model.slot === 0;
        if (!by("sums").hidden) {
            by("sums-line").textContent = sumsText(model);
            drawWaiting(model);
        }
    }

    Object.assign(viewer, { TRAFFIC_CHANGES, fillTraffic, watchSlider, showTraffic, showSums });
})(globalThis.SlotViewer = globalThis.SlotViewer || {});

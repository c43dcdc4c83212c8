// Packets in words: those in a queue, and the way of one that is followed.
(function (viewer) {
    "use strict";

    const { KIND_NAMES, plural } = viewer;

    const MOST_NAMED = 8;

    function partText({ packet, cells }) {
        const of = cells === packet.cells ? plural(cells, "cell") : `${cells} of ${plural(packet.cells, "cell")}`;
        return `packet ${packet.packet} (${of})`;
    }

    function queueText(waiting) {
        const { level, kind } = waiting[0].packet;
        const cells = waiting.reduce((sum, one) => sum + one.cells, 0);
        const names = waiting.slice(0, MOST_NAMED).map(partText).join(", ");
        const rest = waiting.length > MOST_NAMED ? ` and ${waiting.length - MOST_NAMED} more` : "";
        return `level ${level}, ${KIND_NAMES[kind]}: ${plural(cells, "cell")} of ${names}${rest}`;
    }

    /** What waits at a crosspoint, a text for each queue. */
    function packetsText(view, input, output) {
        const byQueue = d3.nest().key(({ packet }) => viewer.queueCode(packet.level, packet.kind)).entries(view.packetsAt(input, output));
        return byQueue.map(({ values }) => queueText(values));
    }

    /** A button for each packet that waits at a crosspoint, up to eight: it is followed from then on. */
    function drawPacketButtons(element, view, crosspoint, onFollow) {
        const waiting = crosspoint === null || view.isEnded ? [] : view.packetsAt(crosspoint.input, crosspoint.output);
        d3.select(element).selectAll("button").data(waiting.slice(0, MOST_NAMED)).join("button").attr("type", "button")
            .text(({ packet }) => `Follow packet ${packet.packet} of input ${packet.input}`).on("click", ({ packet }) => onFollow(packet));
    }

    function describePacket({ input, packet, bytes, cells, state, level, kind, arrival, outputs, departures }) {
        const size = `Packet ${packet} of input ${input}: ${plural(bytes, "byte")}, ${plural(cells, "cell")}.`;
        const to = outputs.length === 0 ? "" : `, level ${level}, ${KIND_NAMES[kind]} to output${outputs.length === 1 ? "" : "s"} ${viewer.listed(outputs)}`;
        if (state !== "forwarded") {
            const why = { dropped: "dropped, as its queue has no room", unrouted: "without a route", oversize: "too long" }[state];
            return `${size} It arrives in slot ${arrival}${to}, and is ${why}.`;
        }
        const ends = outputs.map((output, at) => `output ${output} in slot ${departures[at]} (delay ${departures[at] - arrival})`);
        return `${size} It arrives in slot ${arrival}${to}. Its last cell departs at ${ends.join(", ")}.`;
    }

    /** Where a packet is in a slot. */
    function placeText(view, packet) {
        const { slot } = view;
        if (packet.state !== "forwarded") {
            return "";
        }
        if (slot < packet.arrival) {
            return `In slot ${slot} it has not arrived.`;
        }
        if (slot >= d3.max(packet.departures)) {
            return `In slot ${slot} it has departed.`;
        }
        const waiting = view.queues.findOf(packet).waiting(slot).find((one) => one.packet === packet);
        if (waiting === undefined) {
            return `In slot ${slot} its last cell crosses.`;
        }
        const ahead = waiting.ahead === 0 ? "at the head of its queue" : `behind ${plural(waiting.ahead, "cell")}`;
        return `In slot ${slot} ${waiting.cells} of its ${plural(packet.cells, "cell")} ${waiting.cells === 1 ? "waits" : "wait"} ${ahead}.`;
    }

    /** The outputs at whose crosspoints a packet waits in a slot. */
    function waitsAt(view, packet) {
        if (packet.state !== "forwarded" || view.slot < packet.arrival) {
            return [];
        }
        // A departure is the slot after the match of the last cell.
        return packet.outputs.filter((_, at) => view.slot < packet.departures[at]);
    }

    viewer.packetsText = packetsText;
    viewer.drawPacketButtons = drawPacketButtons;
    viewer.describePacket = describePacket;
    viewer.placeText = placeText;
    viewer.waitsAt = waitsAt;
})(globalThis.SlotViewer = globalThis.SlotViewer || {});

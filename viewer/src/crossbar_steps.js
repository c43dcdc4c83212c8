// A step of a slot in the crossbar: what is asked, granted, accepted and refused, and the pointers.
(function (viewer) {
    "use strict";

    const { MULTICAST } = viewer;
    const { MARGIN, FONT } = viewer.crossbarLook;

    /** Smaller rings have no level beside them. */
    const LEAST_RING_WITH_LEVEL = 9;

    /** The outline of what is asked: a circle for unicast, a diamond for multicast. */
    function outline(crossbar, { input, output, kind }, size) {
        if (kind === MULTICAST) {
            crossbar.diamond(crossbar.x(output), crossbar.y(input), size * 1.3);
        } else {
            crossbar.circle(crossbar.x(output), crossbar.y(input), size);
        }
    }

    /** An open ring; of dots where the output is matched already. */
    function drawRequest(crossbar, request) {
        const { context, palette, cell } = crossbar;
        context.strokeStyle = palette.levels[request.level];
        context.lineWidth = Math.max(1.2, Math.min(4, cell / 14));
        context.setLineDash(request.isFree ? [] : [2, 3]);
        outline(crossbar, request, crossbar.radius * 0.9);
        context.stroke();
        context.setLineDash([]);
        drawLevel(crossbar, request);
    }

    /** The level of a request, to the right above its ring, so that it is not told by the colour alone. */
    function drawLevel(crossbar, { input, output, level }) {
        const { context, palette, radius } = crossbar;
        if (radius >= LEAST_RING_WITH_LEVEL) {
            context.fillStyle = palette.ink;
            context.font = `${Math.min(16, radius * 0.8)}px ${FONT}`;
            context.textAlign = "left";
            context.textBaseline = "middle";
            context.fillText(level, crossbar.x(output) + radius, crossbar.y(input) - radius);
        }
    }

    /** A line from the output up its column to the crosspoint, with an arrow's head, and a dot in the ring. */
    function drawGrant(crossbar, grant) {
        const { context, palette, radius } = crossbar;
        const x = crossbar.x(grant.output);
        const y = crossbar.y(grant.input);
        const head = Math.max(2.5, radius * 0.5);
        const end = y + radius + head;
        context.strokeStyle = palette.ink;
        context.fillStyle = palette.ink;
        context.lineWidth = Math.max(1, Math.min(3, crossbar.cell / 20));
        crossbar.line(x, MARGIN.top + crossbar.side, x, end);
        crossbar.polygon([[x, end - head], [x - head * 0.8, end + head * 0.4], [x + head * 0.8, end + head * 0.4]]);
        context.fill();
        context.fillStyle = palette.levels[grant.level];
        outline(crossbar, grant, radius * 0.45);
        context.fill();
    }

    /** A cross over a grant that its input refuses. */
    function drawRefused(crossbar, { input, output }) {
        const { context, palette } = crossbar;
        const reach = crossbar.radius;
        const x = crossbar.x(output);
        const y = crossbar.y(input);
        context.strokeStyle = palette.alarm;
        context.lineWidth = Math.max(1.5, Math.min(5, crossbar.cell / 12));
        crossbar.line(x - reach, y - reach, x + reach, y + reach);
        crossbar.line(x - reach, y + reach, x + reach, y - reach);
    }

    /** Matched pairs of an accept. */
    function pairsOf(accepts) {
        return accepts.flatMap((accept) => accept.outputs.map((output) => ({ ...accept, output })));
    }

    function drawRound(crossbar, step) {
        const isAccept = step.phase === "accept";
        crossbar.drawMatch(step.matched);
        step.requests.forEach((request) => drawRequest(crossbar, request));
        if (step.phase !== "request") {
            (isAccept ? step.refused : step.grants).forEach((grant) => drawGrant(crossbar, grant));
        }
        if (isAccept) {
            crossbar.drawMatch(pairsOf(step.accepts));
            step.refused.forEach((grant) => drawRefused(crossbar, grant));
        }
    }

    /** The crosspoint, or the place left of the rows, at which a pointer is when it is at a port. */
    function pointerPath(crossbar, { side, port }, at) {
        if (side === "grant") {
            crossbar.grantPointer(port, at);
        } else if (side === "accept") {
            crossbar.acceptPointer(port, at);
        } else {
            crossbar.sharedPointer(at);
        }
    }

    /** Where a pointer was, as an open triangle; a pointer that a refused grant leaves has a bar beside it. */
    function drawMove(crossbar, move) {
        const { context, palette } = crossbar;
        context.strokeStyle = palette.ink;
        context.lineWidth = Math.max(1, Math.min(2.5, crossbar.cell / 30));
        if (move.from !== move.to) {
            pointerPath(crossbar, move, move.from);
            context.stroke();
        } else if (move.side === "grant" && !move.isAccepted) {
            const x = crossbar.x(move.port) - crossbar.cell / 2 + crossbar.pointerSize * 1.3 + 3;
            const y = crossbar.y(move.to);
            crossbar.line(x, y - crossbar.pointerSize, x, y + crossbar.pointerSize);
        }
    }

    /** Draws a step: the pairs so far, what the step adds, and the pointers of the chosen level. */
    function drawStep(crossbar, step) {
        const { view, settings } = crossbar;
        const isLast = step.name === viewer.LAST_STEP;
        if (isLast) {
            crossbar.drawMatch(step.matched);
            view.differing.forEach((output) => crossbar.drawDifference(output));
        } else {
            drawRound(crossbar, step);
        }
        if (settings.pointerLevel !== "none") {
            const level = Number(settings.pointerLevel);
            crossbar.drawPointers(isLast ? step.after : view.pointers, level);
            if (isLast) {
                step.moves.filter((move) => move.level === level).forEach((move) => drawMove(crossbar, move));
            }
        }
    }

    viewer.drawStep = drawStep;
})(globalThis.SlotViewer = globalThis.SlotViewer || {});

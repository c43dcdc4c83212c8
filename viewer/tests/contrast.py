"""Contrasts of the viewer's colours, computed from viewer/style.css by the formula of WCAG 2.2."""

import pathlib
import re

STYLE = pathlib.Path(__file__).resolve().parents[2] / "viewer/style.css"

# Level AA: texts, and what is not text but is needed to understand the page.
LEAST_OF_TEXT = 4.5
LEAST_OF_MARKS = 3.0

LEVELS = [f"level-{level}" for level in range(4)]
# (foreground, background, least contrast)
PAIRS = ([(text, ground, LEAST_OF_TEXT) for text in ("ink", "faint", "alarm") for ground in ("paper", "panel")]
         + [("alarm", "alarm-paper", LEAST_OF_TEXT)]
         # The level in a closed crosspoint is a number in the colour of the paper.
         + [("paper", level, LEAST_OF_TEXT) for level in LEVELS]
         + [(mark, "paper", LEAST_OF_MARKS) for mark in ["accent", "faint", "heat", "heat-middle", *LEVELS]])


def themes():
    """The variables of each theme by their names."""
    blocks = re.findall(r'^:root(\[data-theme="dark"\])? \{(.*?)^\}', STYLE.read_text(), re.S | re.M)
    light, dark = (dict(re.findall(r"--([a-z0-9-]+): ([^;]+);", body)) for _, body in blocks)
    return {"light": light, "dark": {**light, **dark}}


def channels(colour):
    return [int(colour[at:at + 2], 16) / 255 for at in (1, 3, 5)]


def luminance(parts):
    linear = [part / 12.92 if part <= 0.04045 else ((part + 0.055) / 1.055) ** 2.4 for part in parts]
    return 0.2126 * linear[0] + 0.7152 * linear[1] + 0.0722 * linear[2]


def contrast(one, other):
    light, dark = sorted((luminance(one), luminance(other)), reverse=True)
    return (light + 0.05) / (dark + 0.05)


def blended(colour, ground, opacity):
    return [opacity * part + (1 - opacity) * below for part, below in zip(channels(colour), channels(ground))]


def contrasts():
    """Each contrast that is needed: (theme, what, contrast, least)."""
    found = []
    for theme, colours in themes().items():
        for mark, ground, least in PAIRS:
            found.append((theme, f"{mark} on {ground}", contrast(channels(colours[mark]), channels(colours[ground])), least))
        for level in LEVELS:
            # The number of a wait stands on the tint of its queue, which is at most so strong.
            tint = blended(colours[level], colours["paper"], float(colours["most-tint"]))
            found.append((theme, f"ink on the tint of {level}", contrast(channels(colours["ink"]), tint), LEAST_OF_TEXT))
    return found

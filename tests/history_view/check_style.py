"""Checks the colours of the pages, light and dark: that each text stands out from its ground as WCAG 2 asks (AA, 4.5)."""
import re

from cases import TOP

STYLE = TOP / "tools/history_view/page.css"
# A text's colour and its ground.
PAIRS = [(text, ground) for text in ("ink", "soft") for ground in ("ground", "raised", "hover", "chosen", "red-ground")]
PAIRS += [(name, f"{name}-ground") for name in ("red", "amber", "orange", "violet", "green", "blue")]
PAIRS += [(name, "ground") for name in ("red", "violet", "blue", "focus")] + [("on-red", "red"), ("ground", "soft")]
PAIRS += [("ground", f"c{number}") for number in range(8)] + [("ground", name) for name in ("green", "orange", "violet")]
LEAST = 4.5


def schemes(text):
    """The colours of both schemes, by their names; the dark one keeps those that it doesn't name."""
    light, dark = re.findall(r":root \{(.*?)\}", text, re.DOTALL)
    light, dark = (dict(re.findall(r"--([a-z0-9-]+): (#[0-9a-f]{6});", block)) for block in (light, dark))
    return {"light": light, "dark": {**light, **dark}}


def luminance(color):
    channels = [int(color[at: at + 2], 16) / 255 for at in (1, 3, 5)]
    red, green, blue = (one / 12.92 if one <= 0.04045 else ((one + 0.055) / 1.055) ** 2.4 for one in channels)
    return 0.2126 * red + 0.7152 * green + 0.0722 * blue


def contrast(one, other):
    low, high = sorted((luminance(one), luminance(other)))
    return (high + 0.05) / (low + 0.05)


def run(checks):
    checks.true(abs(contrast("#000000", "#ffffff") - 21) < 0.01, "the contrast of black and white")
    for scheme, colors in schemes(STYLE.read_text(encoding="utf-8")).items():
        for text, ground in PAIRS:
            found = contrast(colors[text], colors[ground])
            checks.true(found >= LEAST, f"the {scheme} contrast of {text} on {ground}: {found:.2f}")

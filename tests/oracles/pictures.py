#!/usr/bin/env python3
"""The picture that `mask_picture` must print, of a CIF file of boxes and labels that are given on the input:

    tests/oracles/pictures.py < crates/mask_picture/stdin | cmp - crates/mask_picture/stdout

It reads docs/LOOKING.md and the definitions of mask_svg anew, and shares no line with the program."""
import sys

STYLE = (
    "<style>text{font-family:sans-serif;paint-order:stroke;stroke:#fff;stroke-width:.2em;stroke-opacity:.7}path,rect{fill-opacity:.6}"
    ".ND{fill:#2e9e4f}.NP{fill:#d93636}.NC{fill:#000;fill-opacity:1}.NM{fill:#3a6fd8;fill-opacity:.45}"
    ".NI{fill:#f2c500;fill-opacity:.35}"
    "path.NI{stroke:#8a6a00;stroke-dasharray:1 3;vector-effect:non-scaling-stroke}"
    ".NB{fill:#7a4a21}.NG{fill:#999;fill-opacity:.35}.ground{fill:#fff;fill-opacity:1}</style>\n"
    "<rect class='ground' width='100%' height='100%'/>\n"
)
DRAWN = ["NI", "ND", "NP", "NB", "NM", "NC", "NG"]
NAMES = [("ND", "diffusion"), ("NP", "polysilicon"), ("NM", "metal"), ("NC", "contact"), ("NI", "implant"),
         ("NB", "buried"), ("NG", "glass")]
LAMBDA = 500  # half-units


def key():
    for number, (layer, name) in enumerate(NAMES):
        row, place = divmod(number, 3)
        yield f"<rect class='{layer}' x='{6 * place}' y='{1.5 * (row + 1):g}' width='1' height='1'/>"
        yield f"<text x='{6 * place + 1.4:.1f}' y='{1.5 * (row + 1) + .9:g}'>{name}</text>\n"
    yield "<rect x='0' y='6.9' width='10' height='.3'/>\n"


def escaped(name):
    special = {38: "&amp;", 60: "&lt;", 62: "&gt;"}
    return "".join(special.get(b) or (chr(b) if 32 <= b <= 126 else "&#65533;") for b in name)


def path(layer, rects):
    shapes = "".join(f"M{x0} {y0}H{x1}V{y1}H{x0}z" for l, x0, y0, x1, y1 in rects if l == layer)
    return f"<path class='{layer}' d='{shapes}'/>\n"


def height(x, y, labels, unit, along, across):
    """The unit, or the distance of the nearest label where that is less, of which a name takes four times as much along it."""
    gaps = (max(abs(x - i) // across, abs(y - j) // along) for _, i, j in labels[:256])
    return min([unit] + [gap for gap in gaps if gap])


def label(name, x, y, labels, unit):
    upwards, across = height(x, y, labels, unit, 4, 1), height(x, y, labels, unit, 1, 4)
    turn = "" if across > upwards else "rotate(-90) "
    return (f"<g transform='translate({x} {-y}) {turn}scale({max(upwards, across)})'>"
            f"<circle r='.2'/><text x='.3'>{escaped(name)}</text></g>\n")


def picture(rects, labels):
    left, bottom = (min((r[k] for r in rects), default=0) for k in (1, 2))
    right, top = (max((r[k] for r in rects), default=0) for k in (3, 4))
    width, height = right - left, top - bottom
    grain = 1 if max(width, height) < 40 * LAMBDA else LAMBDA
    count = max(width, height) // (40 * grain) + 1
    unit = count * grain
    yield f"<svg xmlns='http://www.w3.org/2000/svg' viewBox='0 0 {max(width, 18 * unit) + 4 * unit} {height + 11 * unit}'>\n"
    yield STYLE
    yield f"<g transform='translate({2 * unit} {2 * unit}) translate({-left} {top})'>\n"
    yield "<g transform='scale(1 -1)'>\n"
    yield from (path(layer, rects) for layer in DRAWN)
    yield "</g>\n<g font-size='1'>\n"
    yield from (label(*l, labels, unit) for l in labels)
    yield f"</g>\n<g font-size='.8' transform='translate({left} {-bottom}) scale({unit})'>\n"
    yield from key()
    yield f"<text x='11' y='7.5'>{10 * count} {'half-units' if grain == 1 else 'lambda'}</text>\n</g>\n</g>\n</svg>\n"


def drawing(text):
    """Boxes and labels of one level, in half-units."""
    rects, labels, layer = [], [], None
    for command in (c.strip() for c in text.split(";")):
        words = command.split()
        if words[:1] == ["L"]:
            layer = words[1]
        elif words[:1] == ["B"]:
            length, width, x, y = (2 * int(w) for w in words[1:5])
            rects.append((layer, x - length // 2, y - width // 2, x + length // 2, y + width // 2))
        elif words[:1] == ["94"]:
            labels.append((words[1].encode("latin1"), 2 * int(words[2]), 2 * int(words[3])))
    return rects, labels


if __name__ == "__main__":
    source = sys.stdin.buffer.read().decode("latin1")
    sys.stdout.buffer.write("".join(picture(*drawing(source))).encode())

"""Lanes over time (`lanes`) as a page, a picture or a wave file, with the list of what is wrong under them."""

import collections
import html
import itertools
import json
import pathlib
import textwrap

from nurrispane.files import read_text
from nurrispane.lanes import DIFFERS, FAILED, NOT_TOLD, PLAIN, SWITCHED, WAITING, WRONG

HERE = pathlib.Path(__file__).resolve().parent

# What is drawn: its title and a line on it, lanes by name, the last millisecond, the wrong stretches, how many of them are told with
# their reasons, and the looks that are explained.
Picture = collections.namedtuple("Picture", "title summary lanes end wrong told key")

# What a stretch looks like: its colour, and lines over it with theirs. Dark to light is good to bad; the lines are there so that
# no two read alike in grey.
LINED, CROSSED, DOTTED, HATCHED, LEANING, BARRED, WAVED = (
    "M0 3H6", "M0 0L6 6M0 6L6 0", "M1 3H3", "M0 6L6 0", "M0 0L6 6", "M3 0V6", "M0 4L1.5 2L4.5 5L6 4")
LOOKS = {
    "q1": ("#1b3a52", "", ""),
    "q1-lined": ("#1b3a52", LINED, "#a9c6d8"),
    "q2": ("#3f7396", "", ""),
    "q2-lined": ("#3f7396", LINED, "#dbe8f0"),
    "q3": ("#7fa8c2", "", ""),
    "q3-lined": ("#7fa8c2", LINED, "#1b3a52"),
    "q4": ("#bcd3e0", "", ""),
    "q4-lined": ("#bcd3e0", LINED, "#3f7396"),
    "prov": ("#ddc9a0", LEANING, "#5f4d20"),
    "unused": ("#d9c3a0", DOTTED, "#5a4520"),
    "invalid": ("#ffffff", CROSSED, "#aaaaaa"),
    NOT_TOLD: ("#e4e4e4", "", ""),
    WAITING: ("#fbf3c4", WAVED, "#cdbb62"),
    FAILED: ("#ffffff", HATCHED, "#bbbbbb"),
    PLAIN: ("#f7f7f7", "", ""),
    SWITCHED: ("#f2dfa0", BARRED, "#b89a3a"),
    WRONG: ("#d00000", HATCHED, "#ffb0a0"),
}
DARK = ("q1", "q1-lined", "q2", "q2-lined", WRONG)


# ---- looks


TILE = ('<pattern id="%s" width="6" height="6" patternUnits="userSpaceOnUse"><rect width="6" height="6" fill="%s"/>'
        '<path d="%s" stroke="%s"/></pattern>')


def patterns(used):
    """Those of the looks that have lines over their colours, as an SVG's definitions."""
    return "<defs>%s</defs>" % "".join(TILE % (name, *look) for name, look in LOOKS.items() if look[1] and name in used)


def fill(look):
    return "url(#%s)" % look if LOOKS[look][1] else LOOKS[look][0]


def ink(look):
    """The colour of a label, and of the rim that parts it from the lines below."""
    return ("#fff", LOOKS[look][0]) if look in DARK else ("#000", LOOKS[look][0])


# ---- a page

PAGE = HERE / "picture.html"


def page(picture):
    """One page with its own script and style, and nothing else."""
    said, places = [], {}

    def place(each):
        told = each.value, each.text, each.look
        if told not in places:
            places[told] = len(said)
            said.append(told)
        return places[told]

    data = {
        "last": picture.end + 1, "summary": picture.summary, "key": picture.key, "patterns": patterns(LOOKS),
        "looks": {look: [fill(look), *ink(look)] for look in LOOKS},
        # a stretch ends where the next one begins
        "lanes": [[name, [[each.start, place(each)] for each in stretches]] for name, stretches in picture.lanes],
        "said": said,
        "wrong": [[each.start, each.end, each.head, each.said] for each in picture.wrong[:picture.told]],
        "more": further(picture, picture.told),
    }
    text = json.dumps(data, separators=(",", ":")).replace("<", "\\u003c")
    return read_text(PAGE).replace("@TITLE@", html.escape(picture.title)).replace("@DATA@", text)


def further(picture, told):
    """That there are more wrong stretches than are told; nothing where all are."""
    count = len(picture.wrong) - told
    return "" if count <= 0 else "%s further wrong stretches are not listed: ./nurrispane judge --all tells each" % format(count, ",")


# ---- a small picture

WIDTH, LEFT, HEIGHT, LETTERS = 820, 120, 18, 11
# Narrower than this no stretch is drawn; one that is wrong is at least so wide; one so wide has an edge.
NARROW, WRONG_WIDTH, EDGED = 0.5, 2, 5
# The first lane's top; the height of a line of text, how many letters it takes, how many wrong stretches are listed, and how wide a
# look of the key is drawn.
TOP, LINE, LETTERS_A_LINE, MOST_LISTED, SWATCH = 26, 14, 135, 20, 22


HEAD = ('<svg xmlns="http://www.w3.org/2000/svg" width="%d" height="%d" font-family="sans-serif" font-size="%d" '
        'shape-rendering="crispEdges">')
LABEL = '<text x="%.1f" y="%d" fill="%s" stroke="%s" stroke-width="3" paint-order="stroke" pointer-events="none">%s</text>'
TEXT = '<text x="%.1f" y="%d">%s</text>'


def svg(picture):
    """The whole time as a picture, its key and the list of what is wrong; of stretches that no pixel shows those that are wrong are
    drawn."""
    scale = (WIDTH - LEFT - 10) / (picture.end + 1)
    used = {each.look for _, stretches in picture.lanes for each in stretches}
    made = []
    for row, (name, stretches) in enumerate(picture.lanes):
        top = TOP + HEIGHT * row
        made.append(TEXT % (4, top + 12, html.escape(name)))
        made += lane_in_svg(stretches, top, scale)
    axis = TOP + HEIGHT * len(picture.lanes) + 10
    made.append('<text x="%d" y="%d">0</text><text x="%d" y="%d" text-anchor="end">%s ms</text>' % (
        LEFT, axis, WIDTH - 10, axis, format(picture.end, ",")))
    key, below = key_in_svg([(said, look) for said, look in picture.key if look in used], axis + 10)
    listed = list(list_in_svg(picture, below + LINE))
    height = below + LINE * len(listed) + 8
    return "\n".join([HEAD % (WIDTH, height, LETTERS), "<title>%s</title>" % html.escape(picture.title), patterns(used),
                      '<rect width="100%" height="100%" fill="#fff"/>', TEXT % (4, 16, html.escape(picture.title)), *made, *key, *listed, "</svg>\n"])


def key_in_svg(looks, top):
    """What the looks mean, and where the key ends."""
    made, left = [], 4
    for said, look in looks:
        if left + SWATCH + 6 + width_of(said) > WIDTH - 10:
            left, top = 4, top + HEIGHT
        made.append('<rect x="%.1f" y="%d" width="%d" height="12" fill="%s" stroke="#666"/>' % (left + 0.5, top, SWATCH, fill(look)))
        made.append(TEXT % (left + SWATCH + 5, top + 10, html.escape(said)))
        left += SWATCH + width_of(said) + 20
    return made, top + HEIGHT


def list_in_svg(picture, top):
    """The wrong stretches with the reasons, a text a line."""
    lines = []
    for each in picture.wrong[:min(picture.told, MOST_LISTED)]:
        lines += wrapped(each.head, "")
        for said in each.said:
            lines += wrapped(said, "    ")
    more = further(picture, min(picture.told, MOST_LISTED))
    for row, line in enumerate(lines + [more] * bool(more)):
        yield '<text x="%d" y="%d" xml:space="preserve">%s</text>' % (4, top + LINE * row, html.escape(line))


def wrapped(text, indent):
    return textwrap.wrap(text, LETTERS_A_LINE, initial_indent=indent, subsequent_indent=indent + "    ")


def lane_in_svg(stretches, top, scale):
    """Boxes, and over them edges and labels: one for neighbours that have one value."""
    boxes, labels, wrong, shown = [], [], [], -1.0
    for run in runs(stretches):
        left, right = LEFT + run[0].start * scale, LEFT + run[-1].end * scale
        if right - left < NARROW and left < shown + NARROW and run[0].look != WRONG:
            continue
        shown = right
        # what is wrong comes last, so that it shows however short it is
        (wrong if run[0].look == WRONG else boxes).extend(box(each, top, scale) for each in run)
        if left > LEFT and right - left > EDGED:
            labels.append('<path d="M%.1f %dv%d" stroke="#fff" stroke-width="2"/>' % (left, top, HEIGHT - 4))
        if right - left > width_of(run[0].value) + 6 and run[0].look != PLAIN:
            labels.append(LABEL % (left + 3, top + 11, *ink(run[0].look), html.escape(run[0].value)))
    return boxes + wrong + labels


def runs(stretches):
    """Neighbours that have one value and look."""
    return [list(run) for _, run in itertools.groupby(stretches, key=lambda each: (each.value, each.look))]


def width_of(label):
    """No less than what a label takes."""
    return LETTERS * sum(0.75 if letter.isupper() else 0.6 for letter in label)


def box(each, top, scale):
    width = max((each.end - each.start) * scale, WRONG_WIDTH if each.look == WRONG else NARROW)
    hover = "%s to %s ms: %s%s" % (format(each.start, ","), format(each.end, ","), each.value, ". " + each.text if each.text else "")
    return '<rect x="%.1f" y="%d" width="%.1f" height="%d" fill="%s"><title>%s</title></rect>' % (
        LEFT + each.start * scale, top, width, HEIGHT - 4, fill(each.look), html.escape(hover))


# ---- a wave file

# A millisecond has so many steps of a wave file, which several changes in one millisecond share.
STEPS = 1_000


def vcd(picture):
    """The lanes as string signals for a wave viewer, `differs` as a wire, wrong; the list of what is wrong as a comment."""
    made = ["$comment", *listed_plainly(picture), "$end", "$timescale 1 us $end", "$scope module nurrispane $end"]
    signs = {}
    for place, (name, _) in enumerate(picture.lanes):
        signs[name] = chr(33 + place)
        wire = name == DIFFERS
        made.append("$var %s 1 %s %s $end" % ("wire" if wire else "string", signs[name], "wrong" if wire else name.replace(" ", "_")))
    made += ["$upscope $end", "$enddefinitions $end"]
    changes = collections.defaultdict(dict)
    for name, stretches in picture.lanes:
        for step, value in steps(stretches):
            changes[step][name] = "%d" % (value == "wrong") if name == DIFFERS else "s%s " % value.replace(" ", "_")
    before = {}
    for step in sorted(changes):
        new = {name: value for name, value in changes[step].items() if before.get(name) != value}
        before.update(new)
        made += ["#%d" % step] * bool(new)
        made += [value + signs[name] for name, value in new.items()]
    return "\n".join([*made, "#%d" % (STEPS * (picture.end + 1))]) + "\n"


def steps(stretches):
    """When each stretch begins: those of one millisecond share its steps."""
    for start, row in itertools.groupby(stretches, key=lambda each: each.start):
        row = list(row)
        for place, each in enumerate(row):
            yield STEPS * start + STEPS * place // len(row), each.value


def listed_plainly(picture):
    """The title, the summary and the wrong stretches as lines of a comment."""
    lines = [picture.title, picture.summary]
    for each in picture.wrong[:picture.told]:
        lines += [each.head, *("  " + said for said in each.said)]
    lines += [further(picture, picture.told)]
    return [line.replace("$", "\\x24") for line in lines if line]

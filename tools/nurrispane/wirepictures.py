"""What the ports of a card told and what was right, around a finding: a small picture that prints."""

import html

from nurrispane import lanes, pictures, wirefindings

WIDTH, LEFT, ROW, LETTERS, TOP = 760, 96, 16, 11, 20
# Shown before and after a finding, ms; and at most in all.
AROUND, MOST = 2_000, 20_000


def window(finding, last):
    """From when to when is shown."""
    first = max(finding.first - AROUND, 0)
    return first, min(finding.last + AROUND, first + MOST, max(last, first + 1))


def stretches(course, first, last):
    """(from, to, code) of a course of (ms, code) within a window."""
    ends = [ms for ms, _ in course[1:]] + [last]
    return [(max(start, first), min(end, last), code) for (start, code), end in zip(course, ends) if start < last and end > first]


def told(judge, port):
    return [(one.time, one.code) for one in judge.shown if one.port == port]


def look(said):
    """How a code looks that is told as this quality."""
    return lanes.QUALITIES.get(said, "invalid")


def bar(start, end, said, scale, first, top):
    """One stretch, with its name where it fits."""
    left, wide = LEFT + (start - first) * scale, max((end - start) * scale, 1)
    made = (f'<rect x="{left:.1f}" y="{top}" width="{wide:.1f}" height="{ROW - 3}" fill="{pictures.fill(look(said))}" stroke="#fff" '
            f'stroke-width="0.5"><title>{html.escape(said)}, {start:,} to {end:,} ms</title></rect>')
    if wide > LETTERS * len(said) * 0.75 + 4:
        ink, rim = pictures.ink(look(said))
        made += (f'<text x="{left + 3:.1f}" y="{top + 10}" fill="{ink}" stroke="{rim}" stroke-width="3" paint-order="stroke">'
                 f"{html.escape(said)}</text>")
    return made


def svg(judge, finding):
    """A lane for what each port should tell and one for what it told; where they differ is marked below."""
    first, last = window(finding, judge.part.last())
    scale = (WIDTH - LEFT - 8) / max(last - first, 1)
    made, top = [], TOP
    for port in judge.part.ports:
        for said, course in ((f"port {port} right", judge.course.of(port)), (f"port {port} told", told(judge, port))):
            made.append(f'<text x="2" y="{top + 10}">{said}</text>')
            made += [bar(start, end, wirefindings.name(code, judge.profile), scale, first, top) for start, end, code in stretches(course, first, last)]
            top += ROW
        top += 4
    left, wide = LEFT + (max(finding.first, first) - first) * scale, max((min(finding.last, last) - max(finding.first, first)) * scale, 2)
    made.append(f'<rect x="{left:.1f}" y="{TOP - 4}" width="{wide:.1f}" height="{top - TOP + 4}" fill="none" stroke="#d00000" stroke-width="2"/>')
    axis = f'<text x="{LEFT}" y="12">{first:,} ms</text><text x="{WIDTH - 8}" y="12" text-anchor="end">{last:,} ms</text>'
    return (f'<svg xmlns="http://www.w3.org/2000/svg" viewBox="0 0 {WIDTH} {top + 4}" font-family="sans-serif" font-size="{LETTERS}">'
            f'{pictures.patterns(pictures.LOOKS)}{axis}{"".join(made)}</svg>')

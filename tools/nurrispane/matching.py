"""Which line of one log is which line of another: by time and content, so that a line that one recorder lost shifts nothing.

Lines that stand once in each log are the anchors, as far as they come in the same order; between two anchors equal lines are
matched in their order, and then lines that are equal but for a time a little earlier or later. It takes a few lookups a line."""

import bisect
import collections

from nurrispane import words

# The same event may have been recorded so much earlier or later, in ms.
APART = 1_000


def matched(one, other):
    """Pairs of places, from 0, that rise in both logs."""
    front = common(one, other)
    back = min(common(one[::-1], other[::-1]), min(len(one), len(other)) - front)
    pairs = [(place, place) for place in range(front)]
    ends = len(one) - back, len(other) - back
    before = front - 1, front - 1
    for anchor in [*anchors(one, other, front, ends), ends]:
        pairs += between(one, other, before, anchor)
        if anchor != ends:
            pairs.append(anchor)
        before = anchor
    return pairs + [(ends[0] + place, ends[1] + place) for place in range(back)]


def common(one, other):
    """How many lines are equal from the front."""
    return next((place for place, (first, second) in enumerate(zip(one, other)) if first != second), min(len(one), len(other)))


def anchors(one, other, start, ends):
    """The places of lines that stand once in each log, the most that rise in both."""
    places = [once(lines, start, end) for lines, end in ((one, ends[0]), (other, ends[1]))]
    return rising([(places[0][line], places[1][line]) for line in places[0] if line in places[1]])


def once(lines, start, end):
    """The place of each line that stands there once, in their order."""
    places, twice = {}, set()
    for place in range(start, end):
        if lines[place] in places:
            twice.add(lines[place])
        places.setdefault(lines[place], place)
    return {line: place for line, place in places.items() if line not in twice}


def rising(pairs):
    """The most pairs, of those that rise in the first, that rise in the second too."""
    tails, ends, links = [], [], []
    for place, (_, second) in enumerate(pairs):
        at = bisect.bisect_left(tails, second)
        links.append(ends[at - 1] if at else None)
        tails[at:at + 1], ends[at:at + 1] = [second], [place]
    chain, place = [], ends[-1] if ends else None
    while place is not None:
        chain.append(pairs[place])
        place = links[place]
    return chain[::-1]


def between(one, other, before, after):
    """Pairs of places between two pairs: of equal lines, and then, between these, of the same event at another time."""
    pairs, last = [], before
    for pair in [*in_order(one, other, before, after, lambda line: line), after]:
        pairs += in_order(one, other, last, pair, content)
        if pair != after:
            pairs.append(pair)
        last = pair
    return pairs


def in_order(one, other, before, after, key):
    """Pairs of places with equal keys, each line with the first one that comes after the pair before."""
    waiting, pairs, last = collections.defaultdict(collections.deque), [], before[1]
    for place in range(before[1] + 1, after[1]):
        waiting[key(other[place])].append(place)
    for place in range(before[0] + 1, after[0]):
        queue = waiting.get(key(one[place])) or ()
        while queue and queue[0] <= last:
            queue.popleft()
        if queue and near(one[place], other[queue[0]]):
            last = queue.popleft()
            pairs.append((place, last))
    return pairs


def content(line):
    """A line without its time; as it stands where it is no event."""
    return line[:4] + line[16:] if words.event_of(line) else line


def near(one, other):
    """Whether two lines are equal, or the same event at nearly the same time."""
    if one == other:
        return True
    return abs(words.event_of(one).time - words.event_of(other).time) <= APART

"""What is right and what is known of the inputs at each time of a log, also between its lines: ticks are put in where something
ends, as often as the proved facts name a further end. Extra ticks change no later answer but those to refused lines (`extra-ticks`)."""

import array

from nurrispane import proved, words


def with_ticks(lines, added):
    """The lines with others put in, each after so many of them."""
    made, done = [], 0
    for number, line in added:
        made += lines[done:number] + [line]
        done = number
    return made + lines[done:]


def at_ticks(lines, ticks, profile):
    """What is known at ticks in these lines, which have their LFs, each after a line and at a time, which rise."""
    ticked = with_ticks(lines, [(number, words.tick_line(time, profile.option)) for number, time in ticks])
    return proved.along(ticked, [number + place for place, (number, _) in enumerate(ticks, 1)], profile.start)


class Moment:
    """Something changes: after so many lines of the log, at this time; the answer and, of each input, what is known."""

    def __init__(self, number, known):
        self.number, self.time, self.answer, self.rests = number, known.time, known.answer, known.rests

    @property
    def facts(self):
        return proved.facts_at(self.time, self.rests)


def ends_of(rest):
    """When what runs at an input ends: its timer, and its frame."""
    return proved.numbers_in(rest)[4:6]


def lasting(rest):
    """What is known of an input but for the end of its frame, which changes with nearly each line."""
    numbers = proved.numbers_in(rest)
    return numbers[:5] + numbers[6:]


def soonest_end(known, places):
    """The first end at these inputs that is to come."""
    return min((end for place in places for end in ends_of(known.rests[place]) if end > known.time), default=words.TIME_LIMIT)


def changed_inputs(before, known):
    """The inputs of which something else is known than before."""
    if before is None:
        return []
    return [place for place, (one, other) in enumerate(zip(known.rests, before.rests)) if one != other]


class Course:
    """The moments of a log from the time 0 to its last line or to a later end: after a line, or between two where something ends
    there."""

    def __init__(self, log, end=None):
        self.profile = log.profile
        # a tick at 0 in front, so that what is known before the first line is of the log's option
        self.lines = with_ticks(log.lines, [(0, words.tick_line(0, log.profile.option))])
        # the state's time after each line of the log
        self.times = array.array("Q")
        self.found, self.gaps = [], {}
        self.last = self.at_lines()
        self.end = max(self.last, end or 0)
        self.gap_after(self.final, self.end + 1)
        self.between()

    def at_lines(self):
        """Takes what changes at lines, and keeps where something ends between two; gives the last line's time."""
        before, shown, soonest = None, b"", 0
        for known in proved.along(self.lines, range(1, len(self.lines) + 1), self.profile.start):
            # nothing ends before `soonest`, which is made anew once it has come
            ended = before is not None and soonest < known.time and self.gap_after(before, known.time)
            if soonest <= known.time:
                soonest = soonest_end(known, range(proved.INPUTS))
            if ended or before is None or known.answer[2:] != shown or known.rests != before.rests:
                changed = changed_inputs(before, known)
                soonest = min(soonest, soonest_end(known, changed))
                if ended or known.answer[2:] != shown or any(lasting(known.rests[each]) != lasting(before.rests[each]) for each in changed):
                    self.found.append(Moment(known.number - 1, known))
                    shown = known.answer[2:]
            before = known
            self.times.append(known.time)
        self.times.pop(0)
        self.final = before
        return before.time

    def gap_after(self, known, limit):
        """Keeps what ends after a line and before a time; whether something does."""
        times = {end for rest in known.rests for end in ends_of(rest) if known.time < end < limit}
        if times:
            self.gaps[known.number] = limit, times
        return bool(times)

    def between(self):
        """Takes what changes between lines: a tick at each end, and again at the ends that these tell."""
        asked = set()
        while True:
            pending = [(number, time) for number, (_, times) in sorted(self.gaps.items()) for time in sorted(times) if (number, time) not in asked]
            if not pending:
                break
            asked.update(pending)
            for (number, _), known in zip(pending, at_ticks(self.lines, pending, self.profile)):
                limit, times = self.gaps[number]
                times.update(end for rest in known.rests for end in ends_of(rest) if known.time < end < limit)
                self.found.append(Moment(number - 1, known))
        self.found.sort(key=lambda moment: (moment.number, moment.time))

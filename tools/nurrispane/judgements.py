"""The judgement on a record: every rule of docs/ACCEPTANCE.md, and what could not be judged."""

import bisect
import collections

from nurrispane import answers, courses, heartbeats, hooks, profiles, proved, records, wirefindings
from nurrispane.records import NS_A_MS

# The rounding of two clocks' milliseconds.
ROUNDING = 1
# A step of the clock above this is trouble, ns.
LARGEST_STEP = NS_A_MS
SHORTEST_FRAME = 60

# A code that a port tells from a millisecond on.
Telling = collections.namedtuple("Telling", "time port code")
# A stretch of milliseconds, both ends included, in which a port tells a wrong code, and the first of these.
Wrong = collections.namedtuple("Wrong", "port first last code")
# `void` says why there is no verdict at all, `unfinished` why it doesn't reach the end, `notes` what else was not judged.
Judgement = collections.namedtuple("Judgement", "findings void unfinished notes limit courses")


class Judge:
    """One part of a record, with a tolerance for codes and one for heartbeats, in ms."""

    def __init__(self, part, profile, tolerance, heartbeat):
        self.part, self.profile, self.tolerance, self.heartbeat = part, profile, tolerance, heartbeat
        self.timed = records.log_of(part, profile.option)
        self.late = tolerance + part.slack() + ROUNDING
        self.course = courses.Course(self.timed, part.last(), profile)
        self.race = courses.race(part, self.course, tolerance)
        self.limit = min(part.last(), self.race.limit if self.race else part.last())
        self.shown = [one for port in part.ports for one in self.tellings(port)]
        self.found = []

    def tellings(self, port):
        """What a port shows from when on. What it told before `fresh` was answered stands until it may be late no more."""
        told = [(one.at // NS_A_MS, heartbeats.code_of(one.octets)) for one in self.part.sent[port]]
        told = [Telling(ms, port, code) for ms, code in told if code is not None]
        before, after = [one for one in told if one.time < 0], [one for one in told if one.time >= 0]
        if before and not (after and after[0].time <= self.late):
            return [before[-1]._replace(time=self.late), *after]
        return after

    def stretches(self):
        """Where a port tells a wrong code; a change may wait for the ceiling."""
        question = proved.Question("codes", self.late, ROUNDING, self.limit)
        lines, times = [line + b"\n" for _, line in self.timed], [b"%012x" % time for time, _ in self.timed]
        shown = [(one.time, proved.code(one.port, one.code)) for one in self.shown]
        verdict = proved.verdict(lines, times, shown, question, self.profile)
        wrong = [Wrong(port, each.start, each.end, int(each.value, 16)) for port, found in verdict.stretches.items() for each in found]
        return [left for one in wrong if (left := self.without_waits(one)) and not self.is_held(left)]

    def is_held(self, stretch):
        """Whether the bench stood still for as long as a stretch lasts, in it or in the tolerance before it."""
        first, last = (stretch.first - self.late) * NS_A_MS, stretch.last * NS_A_MS
        return (stretch.last - stretch.first + 1) * NS_A_MS <= self.part.stalls.held(first, last)

    def without_waits(self, stretch):
        """The stretch without the front in which a code that was right when it was told waits for the ceiling."""
        times = [one.time for one in self.shown if one.port == stretch.port]
        first = stretch.first
        for begun, until in heartbeats.waits(self.part, stretch.port, self.tolerance):
            if begun >= first:
                break
            after = bisect.bisect_right(times, begun)
            until = min(until, times[after] - 1) if after < len(times) else until
            first = until + 1 if until >= first else first
        return stretch._replace(first=first, code=self.standing(stretch.port, first)) if first <= stretch.last else None

    def standing(self, port, ms):
        """The code that a port shows at a millisecond, None before any."""
        return next((one.code for one in reversed(self.shown) if one.port == port and one.time <= ms), None)

    # ---- findings of codes

    def clusters(self):
        """Stretches of ports that overlap: what began together is one."""
        found = []
        for one in sorted(self.stretches(), key=lambda one: one.first):
            if found and one.first <= max(each.last for each in found[-1]):
                found[-1].append(one)
            else:
                found.append([one])
        return found

    def is_late(self, one):
        """Whether a stretch is a change told late: what stood was right just before, and the next frame tells that change."""
        length = one.last - one.first + 1
        if length > heartbeats.SECOND + self.tolerance or one.last >= self.limit:
            return False
        before = self.course.at(one.port, max(one.first - self.late - 2 * ROUNDING, 0))
        return before == one.code and self.standing(one.port, one.last + 1) == self.course.at(one.port, one.last)

    def code_findings(self):
        clusters = self.clusters()
        moments = [self.moment(each) for each in clusters]
        places = [self.course.line_at(ms) for ms in moments]
        facts = proved.after(self.course.ticked.lines, [place for place in places if place], self.profile.start)
        for cluster, ms, place in zip(clusters, moments, places):
            yield self.code_finding(cluster, ms, place, facts.get(place))

    def moment(self, cluster):
        """When all ports of a cluster that began together show what they show."""
        first = cluster[0].first
        return max(one.first for one in cluster if one.first <= first + self.late and one.first <= cluster[0].last)

    def code_finding(self, cluster, ms, place, facts):
        first = cluster[0]
        told = {port: code for port in self.part.ports if (code := self.standing(port, ms)) is not None}
        right = {port: self.course.at(port, ms) for port in told}
        last = max(one.last for one in cluster)
        ports = sorted({one.port for one in cluster})
        late = all(map(self.is_late, cluster))
        answer = self.course.ticked.answers[place - 1] if place else b"00ff000400ff"
        rule = "at once" if late else wirefindings.rule_of(told, right, facts, answers.octets_of(answer), self.profile) if facts else "codes"
        wrong = [port for port in ports if told.get(port) != right.get(port)] or [first.port]
        said = wirefindings.told_and_right(wrong, told, right, self.profile)
        reasons = list(wirefindings.reasons(facts, answer, self.profile)) if facts else []
        return wirefindings.Finding(rule, "late" if late else "code", ports, first.first, last, 1,
                                    f"{wirefindings.times(first.first, last)}: {said}", reasons)

    # ---- findings of refusals

    def refusals(self):
        """Commands that the card refused and a right card accepts."""
        asked = [one for one in self.part.played if one.reply != hooks.CANNOT]
        right = self.answered()
        for one, answer in zip(asked, right):
            ms = one.first // NS_A_MS
            if one.reply == hooks.REFUSED and answer[:2] == b"00" and ms <= self.limit:
                yield wirefindings.Finding("refusals", "refused", [], ms, ms, 1,
                                           f"at {ms:,} ms: {one.words} is refused ({one.told}), right is to accept it", [])

    def answered(self):
        """The right answer to each line of the log."""
        own = {}
        for line, answer in zip(self.course.ticked.lines, self.course.ticked.answers):
            own.setdefault(line, []).append(answer)
        return [own[line].pop(0) for _, line in self.timed]

    def exercised(self):
        """The rules that what was played and judged can have shown on the ports that are seen."""
        found = {"heartbeat", "frame"}
        ticked = self.course.ticked
        changes = [ms for port in self.part.ports for ms, _ in self.course.of(port)[1:] if ms <= self.limit]
        found |= {"flag", "at once", "outgoing"} if changes else set()
        found |= {"ceiling"} if any(heartbeats.waits(self.part, port, 0) for port in self.part.ports) else set()
        judged = [number for number, time in enumerate(ticked.times, 1) if time <= self.limit]
        for number, facts in proved.after(ticked.lines, judged, self.profile.start).items():
            answer, line = answers.octets_of(ticked.answers[number - 1]), ticked.lines[number - 1]
            found |= wirefindings.touched(facts, answer, line, self.part.ports, self.profile)
        return found | {"refusals" for one in self.part.played if one.reply == hooks.REFUSED}

    def findings(self):
        """All of the part, the first in time first."""
        slips = [slip for port in self.part.ports for slip in heartbeats.slips(self.part, port, self.heartbeat)]
        self.found = wirefindings.joined([*wirefindings.of_slips(slips), *self.code_findings(), *self.refusals()])
        return self.found


# ---- a whole record


def void(record):
    """Why there is no verdict: nothing of this is the card's."""
    if dropped := record.counts["dropped"]:
        yield f"the kernel dropped {dropped} frames: what was played or told is not known"
    if record.number("clock-step-ns") > LARGEST_STEP or record.counts["back"]:
        yield f"the clock was set during the run, by {record.number('clock-step-ns') / NS_A_MS:.1f} ms or more"
    if not record.counts["sent"]:
        yield "no frame of the card was seen on any port: are the cables and the interfaces right?"


def unfinished(record, judges):
    """Why the judgement doesn't reach the end."""
    if "stopped" in record.about:
        yield f"the run was stopped: {record.about['stopped']}"
    missing = record.number("frames-given") - record.counts["played"]
    if missing > 0:
        yield f"{missing} frames were sent and never came to the wire: is a link down?"
    for judge in judges:
        if judge.race:
            yield f"codes are judged up to {judge.race.limit:,} ms: what came first decides what is right after that: {judge.race.words}"


def notes(record):
    """What else was not judged."""
    cannot = [one.words for part in record.parts for one in part.played if one.reply == hooks.CANNOT]
    if cannot:
        yield f"the console cannot do this, so it is no part of what is right: {', '.join(cannot)}"
    short = sum(one.octets is not None and len(one.octets) < SHORTEST_FRAME for part in record.parts for one in part.played)
    if short:
        yield f"{short} frames played are shorter than 60 octets: an ordinary port pads them, and then the card got others"
    for name, said in (("foreign", "are no ESMC"), ("unmapped", "are on interfaces that are no port"), ("unusable", "are cut or have no time")):
        if record.counts[name]:
            yield f"{record.counts[name]} frames {said}"
    stood = [end - start for part in record.parts for start, end in part.stalls.spans if 0 <= start <= part.end]
    if stood:
        yield (f"the bench itself stood still {len(stood)} times, {max(stood) / NS_A_MS:.0f} ms at most: times around that have as much more "
               "room")
    if len(record.parts) > 1:
        yield f"the record has {len(record.parts)} fresh starts: each is judged from its own zero"


def judged(record, tolerance, heartbeat, start=()):
    """The judgement on a record of a card that started with this START, or else with the record's own."""
    profile = profiles.of_log(record.option(), start or record.start())
    reasons = list(void(record))
    if reasons:
        return Judgement([], reasons, [], list(notes(record)), 0, [])
    judges = [Judge(part, profile, tolerance, heartbeat) for part in record.parts]
    found = [one for judge in judges for one in judge.findings()]
    return Judgement(found, [], list(unfinished(record, judges)), list(notes(record)), judges[-1].limit, judges)

"""Judges a card by its frames alone: the codes that its ports told against the proved ones for what was really played, the
heartbeats, the event flag and the sixty octets. docs/ACCEPTANCE.md has the rules.

RECORD is what `play` wrote, or a capture that others made: then --map names its interfaces, --commands a file of the commands with
their times, and --bench the addresses of the frames that were played, where the capture has no directions. Exit status 0: nothing
is wrong; 1: a finding; 2: trouble, or not judged to the end. Trouble is never a verdict on the card."""

import re

from nurrispane import durations, judgements, plays, profiles, records, wirefindings
from nurrispane.files import FINDING, FINE, TROUBLE, Trouble, name_of, write

SUMMARY = "judge a card from a record of the wire"
EXAMPLES = [
    "./nurrispane wire examples/wire/forced",
    "./nurrispane wire examples/wire/forced --tolerance 200ms --heartbeat 100ms",
]
# What the bench plays with unless a sequence says otherwise.
BENCH = "02-00-00-00-00-01"


def tolerances(parser):
    parser.add_argument("--tolerance", type=durations.milliseconds, default="50ms", metavar="TIME",
                        help="how late a code may be (50ms)")
    parser.add_argument("--heartbeat", type=durations.milliseconds, default="50ms", metavar="TIME",
                        help="how much a heartbeat may be off (50ms)")


def arguments(parser):
    parser.add_argument("record", metavar="RECORD", help="a directory that `play` made, or a capture")
    tolerances(parser)
    parser.add_argument("--map", nargs="+", metavar="PORT=INTERFACE", help="of a capture: its interfaces' ports")
    parser.add_argument("--commands", metavar="FILE", help="of a capture: lines FIRST LAST WORDS | REPLY, times in seconds")
    parser.add_argument("--bench", nargs="+", default=[BENCH], metavar="ADDRESS", help=f"of a capture: who played ({BENCH})")
    profiles.argument(parser)
    parser.add_argument("--out", metavar="FILE", help="write to FILE, whole or not at all")


def addresses(told):
    for each in told:
        if not re.fullmatch("[0-9a-f]{2}(-[0-9a-f]{2}){5}", each):
            raise Trouble(f"--bench is a source address, as {BENCH}, not {ascii(each)}")
    return {bytes.fromhex(each.replace("-", "")) for each in told}


def run(options):
    mapped = plays.ports_of(options.map) if options.map else None
    if (mapped is None) != (options.commands is None):
        raise Trouble("a capture needs both --map and --commands, a RECORD neither")
    record = records.read(options.record, mapped, options.commands, addresses(options.bench))
    judgement = judgements.judged(record, options.tolerance, options.heartbeat, profiles.start_of(options.start))
    write(options.out, "".join(line + "\n" for line in told(record, judgement, options)).encode())
    return status_of(judgement)


def status_of(judgement):
    if judgement.void:
        return TROUBLE
    return FINDING if judgement.findings else TROUBLE if judgement.unfinished else FINE


def told(record, judgement, options):
    """What is said of a record, line by line."""
    counts, part = record.counts, record.parts[-1]
    yield (f"{name_of(options.record)}: {part.last() / 1000:,.1f} s, {wirefindings.some(part.ports, 'port')}, {counts['sent']} frames of the card, "
           f"{counts['played']} played; tolerance {options.tolerance} ms and {part.slack()} ms for commands, heartbeats {options.heartbeat} ms")
    for why in judgement.void:
        yield f"no verdict: {why}"
    if not judgement.void:
        found = len(judgement.findings)
        yield f"{found} finding{'s' * (found != 1)}" if found else "nothing is wrong" + " as far as it is judged" * bool(judgement.unfinished)
    for number, one in enumerate(judgement.findings, 1):
        yield from wirefindings.in_words(number, one)
    for why in judgement.unfinished:
        yield f"not judged to the end: {why}"
    for why in judgement.notes:
        yield f"note: {why}"
    for what in unseen(part.ports):
        yield f"not seen by this bench: {what}"


def unseen(ports):
    """What no wire shows, and what these ports don't."""
    rest = [port for port in range(16) if port not in ports]
    if rest:
        yield f"the codes of {wirefindings.some(rest, 'port')}"
    yield from wirefindings.UNSEEN

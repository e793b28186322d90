"""Writes the bench's sequences into a new directory DIR: what to play to a card, and what to expect.

Each sequence starts from a fresh card and has a folder: what it needs of the bench (README.txt), a capture
file for each port that hears frames (for tcpreplay; the name says when to start it, and the times in all of
them are of one clock), the timed list of all else in words (commands.words), the event log as a whole
(events.log), and each event with the answer, the outgoing codes and the count of due moments to expect
(expected.words), asked of the proved programs now. `known` has the logs that find the known faults on a bench
with this jitter, `pairs` the logs in which rules meet. With --ethernet it is the logs that Ethernet ports alone
can play, without a console: settings before the first frame (setup.words), then frames and looks. TABLE.md says
which known fault each log finds, in which line, by which answer and up to how much jitter, and which are not
found; README.txt says how to play them."""

import collections

from nurrispane import answers, captures, faults, jitter, logs, programs, sequences, words
from nurrispane.files import FINE, Trouble, free_directory, name_of, whole_directory, write, write_out

SUMMARY = "sequences for a bench: captures to play, commands, expected answers, what they find"
EXAMPLES = [
    "./nurrispane bench /tmp/sequences",
    "./nurrispane bench /tmp/causes --find 'code misread' 'wait cut short: by' 'forced forgotten' 'equals traded'",
    "./nurrispane bench /tmp/ports --ethernet --jitter 200ms",
]

# How a signal is made to fail.
SIGNAL_OFF, LINK_DOWN = "a line: take its signal off", "Ethernet: take its link down"
# Fewer octets have no Ethernet header: no port can be sent such a frame.
ETHERNET_HEADER = 14
CAUSES = ["code misread", "wait cut short", "forced forgotten", "equals traded"]


def arguments(parser):
    parser.add_argument("dir", help="a directory that is not there yet, or empty")
    parser.add_argument("--part", choices=["known", "pairs"], help="only this part")
    parser.add_argument("--jitter", default="%dms" % jitter.DEFAULT, metavar="MS",
                        help="how late the bench may be with an event: the set for it; %dms by default, up to %dms" % (jitter.DEFAULT, jitter.LEVELS[-1]))
    parser.add_argument("--ethernet", action="store_true", help="for a bench that has Ethernet ports alone and no console")
    parser.add_argument("--find", nargs="+", metavar="TEXT", help="only what finds the faults with TEXT in their names")
    parser.add_argument("--longest", type=int, metavar="SECONDS", help="only sequences that take no longer")


# A sequence with what is expected of a card.
Played = collections.namedtuple("Played", "folder sequence events answers outgoing counts")


def played(folder, sequence):
    """A sequence and what the proved programs say to it."""
    events = [words.event_of(line) for line in words.split_log(sequence.data)[0]]
    return Played(folder, sequence, events, *(programs.answers(name, sequence.data) for name in faults.LOG_MODES))


def on_a_port(event):
    """Whether an event is a frame that a port can be sent."""
    sendable = len(event.octets) >= ETHERNET_HEADER
    return event.kind == words.FRAME_KIND and event.argument == 0 and event.input < 16 and sendable


def port_file(number, first):
    return "port-%02d-from-%dms.pcap" % (number, first)


def files_of(it):
    """Name and content of each file of a sequence's folder."""
    lines = words.split_log(it.sequence.data)[0]
    told = [words.line_in_words(line) for line in lines]
    option = ["option 2"] * (words.option_of(lines) == 2)
    yield "events.log", it.sequence.data
    yield "commands.words", text(
        ["shows " + it.sequence.shows] * bool(it.sequence.shows)
        + option
        + [line for line, event in zip(told, it.events) if not on_a_port(event)]
    )
    yield "expected.words", text(
        ["%-24s | %s > %s = %s" % (line, answers.words(answer), codes.decode(), count.decode())
         for line, answer, codes, count in zip(told, it.answers, it.outgoing, it.counts)] + option
    )
    if on_ethernet(it):
        yield "setup.words", text(option + told[:first_frame(it.events)])
    for number, frames in sorted(frames_by_port(it.events).items()):
        yield port_file(number, frames[0][0]), captures.pcap(frames)


def on_ethernet(it):
    return it.folder.startswith(sequences.ETHERNET + "/")


def first_frame(events):
    """How many events come before the first frame."""
    return next((place for place, event in enumerate(events) if event.kind == words.FRAME_KIND), len(events))


def frames_by_port(events):
    """Time and octets of the frames of each port."""
    ports = collections.defaultdict(list)
    for event in events:
        if on_a_port(event):
            ports[event.input].append((event.time, event.octets))
    return ports


def text(lines):
    return "".join(line + "\n" for line in lines).encode()


def names_of(find, amount, table, kept):
    """The names of the logs that are asked for, in the order of the table."""
    only = None
    if find:
        only = {fault for fault in faults_of(table) if any(text in fault for text in find)}
        if not only:
            raise Trouble("no known fault that a bench can find has %s in its name" % " or ".join(map(ascii, find)))
    costs = {name: sequences.duration(kept[name].data) + sequences.FRESH_CARD for name in table.finds}
    return sequences.chosen_under(table.entries, costs, jitter.level_for(amount), only)


def faults_of(table):
    """The faults that the set finds, in the order of the lists."""
    return dict.fromkeys(entry.fault for entry in table.entries)


def parts(options, table, amount):
    """The sequences to write, each with its folder: of the set in the order of the table, then the pairs."""
    part = sequences.ETHERNET if options.ethernet else "known"
    kept = sequences.of_ethernet() if options.ethernet else sequences.kept("known")
    missing = [name for name in table.finds if name not in kept]
    if missing:
        raise Trouble("no sequence %s: sequences/make makes the set anew" % missing[0])
    chosen = {part: [kept[name] for name in names_of(options.find, amount, table, kept)]}
    chosen["pairs"] = [] if options.find or options.ethernet else sequences.kept("pairs").values()
    for part, its in chosen.items():
        if options.part in (None, part):
            for place, sequence in enumerate(its, 1):
                if options.longest is None or sequences.duration(sequence.data) <= 1000 * options.longest:
                    yield played("%s/%02d-%s" % (part, place, folder_name(sequence.name)), sequence)


def folder_name(name):
    """What a sequence is called in DIR: its name without the folder that all of its kind are in."""
    folder, _, rest = name.partition("/")
    return rest if folder in ("known", "pairs", sequences.ETHERNET) else name.replace("/", "-")


def readme(its, table, amount):
    """How to play them."""
    seconds = sum(sequences.duration(it.sequence.data) for it in its) / 1000
    yield "%d sequences for a bench, %.0f s in all; the time to bring a card back to its fresh state comes on top." % (
        len(its), seconds)
    yield ""
    yield from PLAYING.strip().split("\n")
    yield from ["", *ETHERNET_ALONE.strip().split("\n")] if any(map(on_ethernet, its)) else []
    yield from ["", *(LATE % {"amount": amount, "seeds": jitter.SEEDS}).strip().split("\n")]
    for it in its:
        yield ""
        yield it.folder
        yield from ("    " + line for line in about(it, table))


def about(it, table):
    """What one sequence shows, and what it needs of the bench."""
    data = it.sequence.data
    if it.sequence.shows:
        yield "shows: " + it.sequence.shows
    yield "takes: %.1f s, %d events" % (sequences.duration(data) / 1000, len(it.events))
    yield "pace: " + pace_of(it.events)
    yield from needed(it)
    yield "Ethernet alone: " + what_ethernet_plays(it)
    yield "jitter: " + what_jitter_it_bears(it, table)
    for number, frames in sorted(frames_by_port(it.events).items()):
        yield "port %d: %s, %d frames, the first at %d ms" % (number, port_file(number, frames[0][0]), len(frames), frames[0][0])


def word_of(event):
    return "frame" if event.kind == words.FRAME_KIND else getattr(words.BY_NUMBER.get(event.kind), "word", "unknown kinds")


def needed(it):
    """The lines on what a bench needs for a sequence."""
    by_word = collections.defaultdict(list)
    for event in it.events:
        word = word_of(event)
        by_word["signal fail" if word == "signal" and event.argument == 1 else "signal good" if word == "signal" else word].append(event)
    told = lambda word: "%d on input %s" % (len(by_word[word]), logs.ranges(sorted({event.input for event in by_word[word]})))
    commands = sorted(by_word.keys() - {"signal fail", "signal good", "code", "frame", "tick", "word"})
    commands = ", ".join("%s %d" % (word, len(by_word[word])) for word in commands)
    yield "needs settings: %s" % commands if on_ethernet(it) else "needs a console: %s" % (commands or "no commands")
    yield "needs line codes: %s" % (told("code") if "code" in by_word else "none")
    yield "needs signals: good: %s; fails: %s" % (told("signal good") if "signal good" in by_word else "none", ", ".join(failures(it)) or "never")
    yield "needs looks: %d (tick: read the state)" % len(by_word["tick"])
    lacking = sequences.needs(it.sequence.data, it.answers)
    if lacking:
        yield "needs besides: " + ", ".join(lacking)


def failures(it):
    """How each signal that fails is made to fail, by the kind that its input has then."""
    kind, ways = words.BY_WORD["kind"], collections.Counter()
    ethernet = set()
    for event in it.events:
        if event.kind == kind.number:
            (ethernet.add if event.argument == kind.names["ethernet"] else ethernet.discard)(event.input)
        elif word_of(event) == "signal" and event.argument == 1:
            ways[event.input, LINK_DOWN if event.input in ethernet else SIGNAL_OFF] += 1
    return ["%d on input %d (%s)" % (count, number, way) for (number, way), count in sorted(ways.items())]


def what_ethernet_plays(it):
    """What of a sequence a bench can play that has Ethernet ports alone."""
    if sequences.on_ethernet(it.sequence.data):
        return "all of it, once the %d settings before the first frame are made" % sum(
            1 for event in it.events[:first_frame(it.events)] if not sequences.is_tick(event))
    frames = sum(map(on_a_port, it.events))
    links = sum(1 for event in it.events if word_of(event) == "signal" and event.input in sequences.ethernet_ports(it.sequence.data))
    if not frames and not links:
        return "nothing of it"
    return "%d frames and %d changes of a link, of %d events; not the whole" % (frames, links, len(it.events))


def what_jitter_it_bears(it, table):
    """How many of the faults that a log finds it finds with every seed, for each amount of jitter."""
    entries = [entry for entry in table.entries if entry.log == it.sequence.name]
    if not entries:
        return "made to the millisecond; of what was really sent ./nurrispane replay says what is right"
    counts = ["%d up to %d ms" % (sum(1 for entry in entries if entry.jitter >= amount), amount) for amount in jitter.LEVELS[1:]]
    return "finds %d known faults, with every seed %s" % (len(entries), ", ".join(counts))


def pace_of(events):
    """How close events come to one another."""
    gaps = [after.time - before.time for before, after in zip(events, events[1:])]
    tight = [gap for gap in gaps if gap < sequences.PACES[0]]
    if not tight:
        return "no two events come within %d ms" % sequences.PACES[0]
    together = sum(1 for gap in tight if gap == 0)
    closest = min((gap for gap in tight if gap), default=None)
    told = "%d of %d events come within %d ms of the one before" % (len(tight), len(events), sequences.PACES[0])
    told += ", the closest in %d ms" % closest if closest else ""
    return told + (", %d in its millisecond" % together if together else "")


PLAYING = """
To play one: bring the card to its fresh state, call this moment 0 ms, and
  - give it each line of commands.words at its time (docs/LABORATORY.md has the words; "tick": read its state),
  - start each capture file at the time in its name, on the port in its name:
        tcpreplay --intf1 INTERFACE port-03-from-1000ms.pcap
    the times between its frames are kept; the times in all files of a folder are ms from the same 0,
  - after each event read the card's state and compare it with expected.words: what stands after "|" is the
    answer, after ">" the codes that its sixteen ports send, after "=" how many due moments the event's tick served.
Events of one millisecond come in the order of events.log. A bench that cannot keep that, or the millisecond,
puts a capture of what it really sent into a log (./nurrispane capture .. --setup commands.words --first MS) and asks
./nurrispane replay what is right for that; ./nurrispane score says what that log can still find.

"needs line codes": an input that is a line, whose SSM the bench can set; a code counts after three equal reports.
"needs signals": "fail" is a signal that is lost. On a line take the signal off (pull it, or switch its source off); on an
Ethernet port take the link down (ip link set PORT down, or pull the cable). When the card itself sees it may be
later: what counts is the time at which the card says that it does.
"short frames": frames of fewer than 60 octets, which an ordinary Ethernet port would pad. "odd commands": inputs
or arguments out of range, unknown kinds, a code or a frame for the wrong kind of input; an operator's console may
not let them through. What a console cannot send is left out, and the events after it stay right: all such
are refused and change nothing.
"""

ETHERNET_ALONE = """
Ethernet alone: setup.words has what the card has to be set to before the first frame, by its configuration or whoever has
its console; a good signal is a link that is up. From then on nothing but frames is sent, and nothing but the codes in
the frames that its Ethernet ports send is seen: in expected.words those after ">", of the ports that setup.words makes
Ethernet ports. "tick" is a look at the last frame from each of them.
"""

LATE = """
Jitter: these logs are for a bench that is up to %(amount)d ms late with an event. It was tried with %(seeds)d seeds: every
event late by a random number of ms, the order kept. TABLE.md says up to how much jitter each fault is found with
every seed. A fault that is smaller than the jitter, a wait that is a millisecond short, is found by chance alone.
"""


def findings(its, table, amount, ethernet):
    """Which known fault which log finds; last year's four causes first."""
    by_name = {it.sequence.name: it for it in its if it.sequence.name in table.finds}
    found = set().union(*(table.finds[name] for name in by_name))
    best = bearing(table, by_name)
    known = len(faults_of(table))
    yield "# What these logs find"
    yield ""
    yield "%d known faults: %d found by these logs, %d by other logs of the set, %d %s." % (
        known + len(table.out_of_reach), len(found), known - len(found), len(table.out_of_reach),
        "by no log for Ethernet ports alone" if ethernet else "that no bench can find")
    yield "With a jitter of %d ms %d of them are found with every one of %d seeds." % (
        amount, sum(1 for most in best.values() if most >= amount), jitter.SEEDS)
    yield from ["\"outgoing\": the codes that the Ethernet ports send, in the order of their numbers."] if ethernet else []
    yield ""
    yield from logs_in_turn(by_name, table)
    groups = [("Last year's cause: " + cause, lambda name, cause=cause: name.startswith(cause)) for cause in CAUSES]
    groups.append(("All other known faults", lambda name: not name.startswith(tuple(CAUSES))))
    for title, belongs in groups:
        yield from ["", "## " + title, ""]
        yield "| Known fault | Found up to | Log | Line | Event | Right | With the fault | Also found by |"
        yield "|---|---|---|---|---|---|---|---|"
        for fault in faults_of(table):
            if belongs(fault) and fault in found:
                yield "| %s |" % " | ".join(cells_of(shown_by(fault, table, by_name), by_name))
    yield from smaller(table, by_name, amount)
    yield from ["", "## What Ethernet ports alone do not find" if ethernet else "## What no bench can find", ""]
    yield from ("* %s: %s" % named for named in table.out_of_reach.items())


def bearing(table, by_name):
    """Each fault that these logs find, with the jitter up to which one of them does with every seed."""
    best = {}
    for entry in table.entries:
        if entry.log in by_name:
            best[entry.fault] = max(best.get(entry.fault, 0), entry.jitter)
    return best


def shown_by(fault, table, by_name):
    """The entries of a fault, those that bear the most jitter first."""
    return sorted((entry for entry in table.entries if entry.fault == fault and entry.log in by_name), key=lambda entry: -entry.jitter)


def logs_in_turn(by_name, table):
    yield "| Log | Time | Finds | All so far |"
    yield "|---|---|---|---|"
    so_far, seconds = set(), 0
    for name, it in by_name.items():
        so_far, seconds = so_far | table.finds[name], seconds + sequences.duration(it.sequence.data) / 1000
        cells = (it.folder, sequences.duration(it.sequence.data) / 1000, len(table.finds[name]), len(so_far), seconds)
        yield "| %s | %.1f s | %d | %d in %.0f s |" % cells


def smaller(table, by_name, amount):
    """The faults that no log finds with every seed of this jitter."""
    best = bearing(table, table.finds)
    lost = [fault for fault, most in best.items() if most < amount]
    if lost:
        yield from ["", "## Smaller than the jitter: found by chance", ""]
        for fault in lost:
            here = "" if any(entry.log in by_name for entry in table.entries if entry.fault == fault) else "; not in these logs"
            yield "* %s: with every seed up to %d ms%s" % (fault, best[fault], here)


def cells_of(shown, by_name):
    """The cells of a fault's row: the first log that finds it, and the numbers of the others."""
    first, it = shown[0], by_name[shown[0].log]
    line = words.line_in_words(words.split_log(it.sequence.data)[0][first.line - 1])
    others = [by_name[entry.log].folder.split("/")[1][:2] for entry in shown[1:]]
    right, wrong = (meaning(first.mode, said) for said in (first.right, first.wrong))
    return first.fault, "%d ms" % first.jitter, it.folder, "%d" % first.line, shortened(line), right, wrong, " ".join(others)


def meaning(mode, said):
    """What the table says, for a person."""
    return answers.meaning(answers.line_of(answers.read(said))) if mode == "replay" and said != "nothing" else said


def shortened(line):
    return line if len(line) <= 80 else line[:77] + "..."


def run(options):
    amount = jitter.read(options.jitter)
    if options.find and options.part == "pairs":
        raise Trouble("--find chooses from the set that finds the known faults, so it doesn't go with --part pairs")
    if options.ethernet and options.part:
        raise Trouble("--ethernet is a set of its own, so it doesn't go with --part")
    free_directory(options.dir)
    table = sequences.read_table(sequences.ETHERNET_TABLE if options.ethernet else sequences.TABLE)
    if sequences.is_stale(table):
        raise Trouble("sequences/table.txt is stale: sequences/make makes it anew")
    its = list(parts(options, table, amount))
    if not its:
        raise Trouble("no sequence is left")
    with whole_directory(options.dir) as directory:
        for it in its:
            (directory / it.folder).mkdir(parents=True)
            for name, content in [*files_of(it), ("README.txt", text([it.folder, *about(it, table)]))]:
                write(directory / it.folder / name, content)
        write(directory / "README.txt", text(readme(its, table, amount)))
        write(directory / "TABLE.md", text(findings(its, table, jitter.level_for(amount), options.ethernet)))
    seconds = sum(sequences.duration(it.sequence.data) for it in its) / 1000
    write_out(f"{len(its)} sequences in {name_of(options.dir)}, {seconds:.0f} s of bench time\n".encode())
    return FINE

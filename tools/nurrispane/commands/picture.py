"""A picture of a log: lanes over time for what a right card selects, what the card under test selects and where they
differ, the passed quality of each input that is ever used, the switch and the clock. What is right changes when it does, also between
two lines of the log; a card that gives ANSWERS is seen at the lines alone, one with --shown at any time. The wrong stretches stand
below, with the reasons. The options for --shown are those of `judge`.

FILE.html is one page with nothing outside it: zoom with the wheel or the keys + and -, drag or use the arrows to move,
hover for the reason. FILE.svg is the whole time as one small picture, FILE.vcd the same lanes as signals for GTKWave.
All of it is asked of the proved programs. Exit status 0: nothing is wrong, or no card is given; 1: the card is wrong; 2: trouble,
also where there is nothing to judge."""

from nurrispane import findings, lanes, logs, pictures, profiles, shown, timeline
from nurrispane.files import FINDING, FINE, Trouble, name_of, write, write_out

SUMMARY = "a log and a card's answers as lanes over time: a page, a small picture, or a wave file"
EXAMPLES = [
    "./nurrispane picture examples/whole-replay.log examples/whole-replay.answers -o /tmp/whole-replay.html",
    "./nurrispane picture examples/whole-replay.log -o /tmp/whole-replay.vcd",
    "./nurrispane picture examples/whole-replay.log --times examples/whole-replay.times --tolerance 50ms -o /tmp/whole-replay.svg",
]
PROGRESS = True
FORMS = {"html": pictures.page, "svg": pictures.svg, "vcd": pictures.vcd}


def arguments(parser):
    parser.add_argument("log", help="an event log; - for standard input")
    profiles.argument(parser)
    parser.add_argument("answers", nargs="?", metavar="ANSWERS", help="the card's answer lines")
    shown.arguments(parser)
    parser.add_argument("-o", "--out", metavar="FILE", required=True, help="where it goes: FILE.html, FILE.svg or FILE.vcd")


def run(options):
    form, over_time = options.out.rpartition(".")[2], shown.is_given(options)
    if form not in FORMS:
        raise Trouble("%s: a picture is a FILE.html, a FILE.svg or a FILE.vcd" % name_of(options.out))
    if over_time and options.answers is not None:
        raise Trouble("either ANSWERS or --shown FILE, not both")
    log = logs.taken("picture", options.log, options.start)
    if not log.lines:
        raise Trouble("%s is empty, so there is nothing to draw" % log.name)
    if over_time or options.answers is not None:
        logs.judged_by(log)
    picture, found = over(log, options) if over_time else by_lines(log, options)
    write(options.out, FORMS[form](picture).encode())
    summary = picture.summary.partition(" lines")[2]
    write_out(f"{len(log.lines)} lines in {len(picture.lanes)} lanes are in {name_of(options.out)}{summary}\n".encode())
    return FINDING if found else FINE


def by_lines(log, options):
    """The picture of a log and of a card's answers, where they are given; and how many findings there are."""
    if options.answers is None:
        return drawn(log, timeline.Course(log), log.name, "", [], []), 0
    judged, course = findings.ByAnswers(log, options.answers), timeline.Course(log)
    card, wrong = lanes.of_answers(course, judged)
    title = "%s and %s" % (log.name, name_of(options.answers))
    return drawn(log, course, title, judged.summary(), [card, lanes.differs(course, wrong)], wrong), judged.count


def over(log, options):
    """The picture of a log and of what a card shows over time, and how many findings there are."""
    judged = findings.ByShown(log, options)
    course = timeline.Course(log, judged.question.end)
    card, wrong = lanes.of_shown(course, judged)
    said = "; ".join([judged.summary(), judged.judged(), *judged.shown.said])
    return drawn(log, course, "%s and %s" % (log.name, judged.shown.name), said, [card, lanes.differs(course, wrong, judged)], wrong), judged.count


def drawn(log, course, title, said, card, wrong):
    """The picture, with the card's lanes and what is wrong in them."""
    right, others = lanes.of_course(course, log.profile)
    made = [(lane.name, lane.ended(course.end + 1)) for lane in [right, *card, *others]]
    summary = "%s lines%s" % (format(len(log.lines), ","), "; " + said if said else "")
    return pictures.Picture(title, summary, made, course.end, wrong, min(len(wrong), lanes.MOST_LISTED), lanes.key(log.profile))

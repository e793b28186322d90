//! Random logs with what a card shows beside them, for the verdict: right cards that are late within
//! the tolerance, wrong ones by random slips, several things told in one millisecond, and tellings at
//! the borders of the tolerance. What is right comes from the rules here; what is asked goes to this
//! program's two judges and to another program.

use std::io::{self, Write};
use std::process::{Command, Stdio};

use crate::generate::{self, LogSource, Numbers, OPTION_ONE, OPTION_TWO, WITH_WORDS};
use crate::line;
use crate::naive_verdict;
use crate::random::Random;
use crate::replay::Replay;
use crate::selector::{Selector, Start, Time, INPUTS};
use crate::verdict::{self, Form, Question, Telling, Value};

/// A question, a stream, and in which lanes the card is right by how it was made.
pub struct Case {
    pub arguments: Vec<String>,
    question: Question,
    pub stream: Vec<u8>,
    right: Vec<bool>,
    /// By how it was made no line is trouble.
    sound: bool,
}

/// What a card does to the right tellings of a lane.
#[derive(Clone, Copy, PartialEq)]
enum Card {
    Right,
    Late,
    Wrong,
    Silent,
}

pub fn case(seed: u64, piece: u64) -> Case {
    let mut random = Random::new(seed, piece);
    let (numbers, start) = option(&mut random);
    let mut log = log(&mut random, numbers);
    let form = form(&mut random);
    let late = if random.percent(60) {
        random.below(401)
    } else {
        random.pick(&[0, 1, 50])
    };
    let early = if random.percent(60) {
        random.below(3)
    } else {
        random.below(60)
    };
    let read: Vec<&str> = start.iter().map(String::as_str).collect();
    let start_read = Start::read(&read).expect("a start").expect("a place");
    let said = random.percent(90);
    let before_shown = if said {
        say_option(&mut random, numbers, start_read, &mut log)
    } else {
        0
    };
    let taken = taken(&log, start_read);
    let last = taken
        .iter()
        .filter_map(|(_, time)| *time)
        .max()
        .unwrap_or(0);
    let end = end(&mut random, last);
    let question = Question {
        form,
        late,
        early,
        end,
        start: start_read,
    };
    let points = points(&log, start_read);
    let cards: Vec<Card> = (0..form.lanes()).map(|_| card(&mut random)).collect();
    let mut shown: Vec<(Telling, usize)> = Vec::new();
    for (lane, card) in cards.iter().enumerate() {
        let told = history(&mut random, &question, &points, lane, *card);
        shown.extend(told.into_iter().map(|telling| (telling, lane)));
    }
    shuffle_lanes(&mut random, &mut shown);
    let mut lines = merged(&mut random, &question, &taken, before_shown, &shown);
    let spoilt = random.percent(3);
    if spoilt {
        spoil(&mut random, &mut lines);
    }
    let mut stream = lines.join(&b'\n');
    if !stream.is_empty() && random.percent(90) {
        stream.push(b'\n');
    }
    let mut arguments = vec![
        form.name(),
        late.to_string(),
        early.to_string(),
        end.to_string(),
    ];
    arguments.extend(start);
    let right = cards
        .iter()
        .map(|card| !spoilt && matches!(card, Card::Right | Card::Late));
    Case {
        arguments,
        question,
        stream,
        right: right.collect(),
        sound: said && !spoilt,
    }
}

fn option(random: &mut Random) -> (&'static Numbers, Vec<String>) {
    let numbers = [&OPTION_ONE, &OPTION_ONE, &OPTION_TWO, &WITH_WORDS][random.below(4) as usize];
    if numbers.byte == OPTION_ONE.byte || random.percent(30) {
        return (numbers, Vec::new());
    }
    let (place, marks) = (random.below(9), random.below(1 << 16));
    (
        numbers,
        vec!["2".into(), place.to_string(), format!("{marks:04x}")],
    )
}

fn form(random: &mut Random) -> Form {
    if random.percent(50) {
        return Form::Codes;
    }
    match random.below(3) {
        0 => Form::Answers([true, false, false, false]),
        1 => Form::Answers([true; 4]),
        _ => {
            let mut judged = [random.percent(50), random.percent(50), false, false];
            judged[2 + random.below(2) as usize] = true;
            Form::Answers(judged)
        }
    }
}

fn card(random: &mut Random) -> Card {
    match random.below(20) {
        0 => Card::Silent,
        1..=3 => Card::Right,
        4..=9 => Card::Late,
        _ => Card::Wrong,
    }
}

fn end(random: &mut Random, last: Time) -> Time {
    match random.below(6) {
        0 => last,
        1 => last.saturating_sub(random.below(500)),
        2 => random.below(last.min(1 << 31) + 1),
        _ => last + random.below(2_000),
    }
}

// ---- logs

/// A short log, line by line.
fn log(random: &mut Random, numbers: &'static Numbers) -> Vec<Vec<u8>> {
    let mut lines: Vec<Vec<u8>> = Vec::new();
    if random.percent(60) {
        busy(random, numbers, &mut lines);
        return lines;
    }
    let kind = random.pick(&["realistic", "nasty", "sparse"]);
    let count = random.between(1, 60);
    let form = generate::Form::New(Random::new(random.next(), 1));
    let sound = generate::sound(kind, Random::new(random.next(), 2), count, numbers);
    let mut source = form.of(sound, numbers, count);
    for _ in 0..count {
        let mut line = Vec::new();
        source.next_line(&mut line);
        line.pop();
        lines.push(line);
    }
    lines
}

/// Few inputs with no waits that change often within a few seconds, from 0 on or later; now and then
/// behind lines that are nearly formed.
fn busy(random: &mut Random, numbers: &Numbers, lines: &mut Vec<Vec<u8>>) {
    let byte = digits(numbers.byte);
    if random.percent(20) {
        for _ in 0..random.between(1, 3) {
            lines.push(nearly_formed(random, byte));
        }
    }
    let begin = if random.percent(50) {
        random.below(400)
    } else {
        0
    };
    let mut time = begin;
    let mut put = |kind: u8, time: Time, input: u64, argument: u64| {
        let line = format!("{kind:02x}{byte}{time:012x}{input:02x}{argument:04x}");
        lines.push(line.into_bytes());
    };
    let inputs: Vec<u64> = (0..random.between(2, 4))
        .map(|_| random.below(16))
        .collect();
    for input in &inputs {
        put(0x04, begin, *input, random.between(1, 3));
        put(0x07, begin, *input, 0);
        put(0x01, begin, *input, 0);
    }
    for _ in 0..random.between(1, 25) {
        time += if random.percent(30) {
            0
        } else {
            random.below(400)
        };
        let input = random.pick(&inputs);
        match random.below(14) {
            0..=6 => {
                let code = random.pick(numbers.codes);
                for _ in 0..3 {
                    put(0x03, time, input, code.into());
                    time += random.below(2) * random.below(50);
                }
            }
            7 => put(0x01, time, input, random.below(2)),
            8 => put(random.pick(&[0x0a, 0x0b, 0x09]), time, input, 0),
            9 => put(0x0c, time, 0, 0),
            10 => put(0x05, time, input, random.below(2)),
            11 => put(0x0e, time, random.below(16), random.below(2)),
            12 => put(0x0d, time, 0, u64::from(random.percent(80))),
            _ => put(random.pick(&[0x0f, 0x04, 0x13]), time, 0, random.below(4)),
        }
    }
}

fn digits(byte: &[u8; 2]) -> &str {
    std::str::from_utf8(byte).expect("digits")
}

/// A tick at 0 with a digit too few, a byte too many, a byte of no option, or a capital; or nothing.
fn nearly_formed(random: &mut Random, byte: &str) -> Vec<u8> {
    let line = match random.below(5) {
        0 => format!("0f{byte}00000000000000000"),
        1 => format!("0f{byte}00000000000000000000"),
        2 => format!("0f{}000000000000000000", random.pick(&["00", "03", "ff"])),
        3 => format!("0F{byte}000000000000000000"),
        _ => String::new(),
    };
    line.into_bytes()
}

fn formed(line: &[u8]) -> bool {
    line::read(line).is_some()
}

/// How many lines stand before anything is shown: those up to the first formed one. Where that is an
/// event later than 0, or there is none, a tick at 0 or a line that is refused says the option before.
fn say_option(
    random: &mut Random,
    numbers: &Numbers,
    start: Start,
    log: &mut Vec<Vec<u8>>,
) -> usize {
    let first = log.iter().position(|line| formed(line));
    let time = first.map(|first| taken(log, start)[first].1);
    if let (Some(first), Some(None | Some(0))) = (first, time) {
        return first + 1;
    }
    let place = random.below(first.unwrap_or(log.len()) as u64 + 1) as usize;
    let (kind, byte) = (random.pick(&["0f", "ff"]), digits(numbers.byte));
    log.insert(
        place,
        format!("{kind}{byte}000000000000000000").into_bytes(),
    );
    place + 1
}

/// Each line with the state's time after it, where it was not refused with 1 to 13.
fn taken(log: &[Vec<u8>], start: Start) -> Vec<(Vec<u8>, Option<Time>)> {
    let mut replay = Replay::fresh(start);
    let mut found = Vec::new();
    for line in log {
        let refused = (1..=13).contains(&replay.take(line).number);
        found.push((line.clone(), (!refused).then_some(replay.selector.time)));
    }
    found
}

/// The states, by the judge's own reader.
fn points(log: &[Vec<u8>], start: Start) -> Vec<Selector> {
    let question = Question {
        form: Form::Codes,
        late: 0,
        early: 0,
        end: 0,
        start,
    };
    verdict::read(&question, &log.join(&b'\n'))
        .expect("a log")
        .points
}

// ---- what is shown

/// The right tellings of a lane: after each event and at each due moment.
fn right_history(question: &Question, points: &[Selector], lane: usize) -> Vec<Telling> {
    let mut found = Vec::new();
    for (place, point) in points.iter().enumerate() {
        let until = points.get(place + 1).map_or(question.end, |next| next.time);
        let mut state = point.clone();
        loop {
            found.push(Telling {
                time: state.time,
                value: question.form.view(&state, lane),
            });
            if state.next_due() > until {
                break;
            }
            state.tick(state.next_due());
        }
    }
    found
}

fn history(
    random: &mut Random,
    question: &Question,
    points: &[Selector],
    lane: usize,
    card: Card,
) -> Vec<Telling> {
    let mut told = right_history(question, points, lane);
    if random.percent(60) {
        told.dedup_by_key(|telling| telling.value);
    }
    if random.percent(20) {
        told.drain(..random.below(told.len() as u64) as usize);
    }
    match card {
        Card::Silent => return Vec::new(),
        Card::Right => return told,
        Card::Late | Card::Wrong => delay(random, question, &mut told),
    }
    if card == Card::Wrong {
        for _ in 0..random.between(1, 4) {
            slip(random, question, &mut told);
        }
        told.sort_by_key(|telling| telling.time);
        told.retain(|telling| telling.time < 1 << 48);
    }
    told
}

/// Each later by at most LATE or earlier by at most EARLY, in their order.
fn delay(random: &mut Random, question: &Question, told: &mut [Telling]) {
    let mut before = 0;
    for telling in told {
        let late = match random.below(4) {
            0 => question.late,
            1 => 0,
            _ => random.below(question.late + 1),
        };
        let early = if random.percent(20) {
            random.below(question.early + 1)
        } else {
            0
        };
        let time = if early > 0 {
            telling.time.saturating_sub(early)
        } else {
            telling.time + late
        };
        telling.time = before.max(time);
        before = telling.time;
    }
}

/// One thing that a wrong card does.
fn slip(random: &mut Random, question: &Question, told: &mut Vec<Telling>) {
    if told.is_empty() {
        return;
    }
    let at = random.below(told.len() as u64) as usize;
    let (late, early) = (question.late, question.early);
    let near = |random: &mut Random, time: Time| {
        let by = random.pick(&[
            0,
            1,
            late,
            late + 1,
            late + early,
            late + early + 1,
            2 * late + 2,
        ]);
        time + by
    };
    match random.below(10) {
        0 => {
            told.remove(at);
        }
        1 => told[at].value = value(random, question, told),
        2 => told[at].time = near(random, told[at].time),
        3 => {
            let by = random.pick(&[0, 1, early, early + 1, early + 2]);
            told[at].time = told[at].time.saturating_sub(by);
        }
        4 => {
            let again = Telling {
                time: near(random, told[at].time),
                value: told[at].value,
            };
            told.push(again);
        }
        // back and forth: each piece is shorter than the tolerance
        5 => {
            let (one, other) = (value(random, question, told), value(random, question, told));
            let step = 1 + random.below(late + 2);
            for turn in 0..random.below(12) {
                let value = if turn % 2 == 0 { one } else { other };
                told.push(Telling {
                    time: told[at].time + turn * step,
                    value,
                });
            }
        }
        // a glimpse of something within the same millisecond, or for one
        6 => {
            let (kept, glimpse) = (told[at], value(random, question, told));
            told[at].value = glimpse;
            told.insert(
                at + 1,
                Telling {
                    time: kept.time + random.below(2),
                    value: kept.value,
                },
            );
        }
        7 => {
            let time = near(random, told[at].time);
            told.push(Telling {
                time,
                value: value(random, question, told),
            });
        }
        8 => {
            let by = random.pick(&[1, late, late + 1, late + early + 1]);
            told.iter_mut().for_each(|telling| telling.time += by);
        }
        _ => told.truncate(at + 1),
    }
}

/// Mostly one that is right at some time; now and then any, also what nothing ever is.
fn value(random: &mut Random, question: &Question, told: &[Telling]) -> Value {
    if random.percent(70) {
        return told[random.below(told.len() as u64) as usize].value;
    }
    match question.form {
        Form::Codes => [random.below(16) as u8, 0, 0, 0, 0],
        Form::Answers(_) => {
            let mut near = told[random.below(told.len() as u64) as usize].value;
            let column = random.below(5) as usize;
            near[column] = random.pick(&[0, 1, 2, 3, 4, 13, 16, 0xfe, 0xff]);
            near
        }
    }
}

/// In time order; of one millisecond the lanes in any order, each lane in its own.
fn shuffle_lanes(random: &mut Random, shown: &mut [(Telling, usize)]) {
    let turn: Vec<u64> = (0..INPUTS).map(|_| random.next()).collect();
    shown.sort_by_key(|(telling, lane)| (telling.time, turn[*lane]));
}

// ---- streams

/// Shown lines stand behind all events that are not later than they with EARLY, and before all that
/// are; lines that are refused may stand anywhere. So many lines of the log stand before all shown ones.
fn merged(
    random: &mut Random,
    question: &Question,
    log: &[(Vec<u8>, Option<Time>)],
    before_shown: usize,
    shown: &[(Telling, usize)],
) -> Vec<Vec<u8>> {
    let (mut lines, mut done) = (Vec::new(), 0);
    for (place, (line, _)) in log.iter().enumerate() {
        let next = log[place..]
            .iter()
            .find_map(|(_, time)| *time)
            .unwrap_or(Time::MAX);
        let accepted = log[place].1.is_some();
        while done < shown.len() && shown[done].0.time + question.early < next {
            if place < before_shown || !accepted && random.percent(30) {
                break;
            }
            lines.push(shown_line(random, question.form, shown[done]));
            done += 1;
        }
        lines.push(line.clone());
    }
    lines.extend(
        shown[done..]
            .iter()
            .map(|each| shown_line(random, question.form, *each)),
    );
    lines
}

/// Columns that are not judged have anything.
fn shown_line(random: &mut Random, form: Form, (telling, lane): (Telling, usize)) -> Vec<u8> {
    let time = telling.time;
    let told = match form {
        Form::Codes => format!("={time:012x}{lane:02x}{}", form.digits(telling.value)),
        Form::Answers([selected, state, quality, switch]) => {
            let judged = [selected, state, quality, switch, switch];
            let mut value = telling.value;
            for (octet, _) in value.iter_mut().zip(judged).filter(|(_, is)| !is) {
                *octet = random.next() as u8;
            }
            format!("={time:012x}{}", form.digits(value))
        }
    };
    told.into_bytes()
}

/// Lines in the wrong order, and shown lines that are none.
fn spoil(random: &mut Random, lines: &mut [Vec<u8>]) {
    if lines.len() < 2 {
        return;
    }
    let at = random.below(lines.len() as u64 - 1) as usize;
    match random.below(3) {
        0 => lines.swap(at, at + 1),
        1 => {
            let other = random.below(lines.len() as u64) as usize;
            lines.swap(at, other);
        }
        _ => {
            let Some(line) = lines[at..]
                .iter_mut()
                .find(|line| line.first() == Some(&b'='))
            else {
                return;
            };
            let place = 1 + random.below(line.len() as u64 - 1) as usize;
            match random.below(4) {
                0 => line.truncate(place),
                1 => line[place] = random.pick(&[b'A', b'F', b'g', b' ', b'=', b'\r', 0xff]),
                2 => line.push(b'0'),
                _ => line.insert(place, b'0'),
            }
        }
    }
}

// ---- asked

/// Lines of stretches by lane: between lanes the order is that in which they close, which is the
/// program's own. Of a stream that is trouble what was said before is.
pub fn in_order(output: &str) -> Vec<&str> {
    let mut lines: Vec<&str> = output.lines().collect();
    if lines
        .last()
        .is_some_and(|last| last.starts_with("trouble "))
    {
        return lines.split_off(lines.len() - 1);
    }
    let lane = |line: &&str| {
        line.split(' ')
            .next()
            .and_then(|lane| lane.parse::<usize>().ok())
    };
    lines.sort_by_key(|line| lane(line).unwrap_or(INPUTS));
    lines
}

fn other_program(program: &[&str], case: &Case) -> io::Result<String> {
    let mut child = Command::new(program[0])
        .args(&program[1..])
        .args(&case.arguments)
        .stdin(Stdio::piped())
        .stdout(Stdio::piped())
        .spawn()?;
    // a short stream fits the pipe
    child.stdin.take().expect("piped").write_all(&case.stream)?;
    let output = child.wait_with_output()?;
    Ok(String::from_utf8_lossy(&output.stdout).into_owned())
}

#[derive(Default)]
struct Counts {
    runs: u64,
    histories: u64,
    right: u64,
    accused: u64,
    found: u64,
    passed: u64,
    silent: u64,
    trouble: u64,
    /// Of these, by a line shown before the log has said its option.
    unsaid: u64,
    /// Sound streams with trouble.
    spurned: u64,
    by_millisecond: u64,
    asked: u64,
}

impl Counts {
    fn take(&mut self, case: &Case, ours: &str) {
        self.runs += 1;
        if let Some(line) = ours.strip_prefix("trouble ") {
            let before = line.trim_end().parse::<usize>().expect("a number") - 1;
            let said = crate::log::lines(&case.stream).take(before).any(formed);
            self.trouble += 1;
            self.unsaid += u64::from(!said);
            self.spurned += u64::from(case.sound);
            return;
        }
        let ends = ours.lines().filter_map(|line| line.strip_prefix(". "));
        for (end, right) in ends.zip(&case.right) {
            let count = end.rsplit(' ').next().expect("a count");
            self.histories += 1;
            match (count, *right) {
                ("-", _) => self.silent += 1,
                ("0", true) => self.right += 1,
                (_, true) => self.accused += 1,
                ("0", false) => self.passed += 1,
                (_, false) => self.found += 1,
            }
        }
    }
}

/// Random histories RUNS times from `SEED`: this program's judges, and another program where one is
/// named, have to say the same; a card that is right within the tolerance is never accused, and no
/// stream is trouble that was made sound.
pub fn try_verdict(
    seed: u64,
    runs: u64,
    program: &[&str],
    output: &mut impl Write,
) -> io::Result<()> {
    let mut counts = Counts::default();
    for piece in 0..runs {
        let case = case(seed, piece);
        let ours = verdict::verdict(&case.question, &case.stream);
        counts.take(&case, &ours);
        let mut others = Vec::new();
        if case.question.end <= naive_verdict::LONGEST && (program.is_empty() || piece % 16 == 0) {
            counts.by_millisecond += 1;
            let naive = verdict::told(&case.question, &case.stream, naive_verdict::judge);
            others.push(("by each millisecond", naive));
        }
        if !program.is_empty() {
            counts.asked += 1;
            others.push(("program", other_program(program, &case)?));
        }
        for (name, theirs) in others {
            if in_order(&ours) != in_order(&theirs) {
                writeln!(
                    output,
                    "DIFFERENCE: history {seed}.{piece}: {}",
                    case.arguments.join(" ")
                )?;
                return write!(output, "independent:\n{ours}{name}:\n{theirs}");
            }
        }
        if counts.accused + counts.spurned > 0 {
            writeln!(
                output,
                "ACCUSED: history {seed}.{piece}: {}",
                case.arguments.join(" ")
            )?;
            return write!(output, "{ours}");
        }
    }
    let Counts {
        runs,
        histories,
        right,
        accused,
        found,
        passed,
        silent,
        trouble,
        unsaid,
        ..
    } = counts;
    writeln!(
        output,
        "{histories} shown histories in {runs} streams, 0 differ, {accused} right cards accused ({right} right, {found} wrong \
         found, {passed} changed with no effect, {silent} silent; {trouble} streams with trouble, {unsaid} of them shown before the option; {} by each millisecond, {} by the program)",
        counts.by_millisecond, counts.asked
    )
}

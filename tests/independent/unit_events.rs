//! Events for the station clock unit (L13): the lines of a log, each with the letter of the selector
//! it is sent to. Commands go to one, or as two lines to both, so that each selector has settings of
//! its own; some lines are torn, carry another byte, or are no events at all.

use std::collections::VecDeque;

use crate::generate::{sound, time_in_old_form, LogSource, Numbers, LAST_TIME};
use crate::random::Random;
use crate::selector::Time;

/// A line further ahead than this is brought back: refused or not, it moves the unit's time, and all
/// that comes before it in time is then refused with 4.
const FAR: Time = 2_000_000;

/// From this many lines on the log below may leap.
const SHORTEST_WITH_LEAPS: u64 = 1_000;

/// The lines that set a log up go to both selectors, but for a few.
const SETUP: u64 = 150;

/// The kinds that go to both anyhow.
const REPORTS: [&[u8]; 6] = [b"01", b"02", b"03", b"0f", b"10", b"12"];

/// Lines that begin with neither `e ` nor `s `.
const NO_EVENTS: [&[u8]; 9] = [
    b"",
    b"e",
    b"s",
    b"E 0f01000000000000000000",
    b"x 0f01000000000000000000",
    b" e 0f01000000000000000000",
    b"0f01000000000000000000",
    b"e\t0f01000000000000000000",
    b"? 0 0 60 020000000001",
];

const OTHER_BYTES: [&[u8]; 9] = [
    b"00", b"01", b"02", b"03", b"12", b"ff", b"0A", b"", b"0101",
];

pub struct UnitEvents {
    log: Box<dyn LogSource>,
    random: Random,
    byte: &'static [u8; 2],
    may_leap: bool,
    now: Time,
    /// How many lines of the log have been taken.
    taken: u64,
    line: Vec<u8>,
    /// What is still to be sent.
    next: VecDeque<Vec<u8>>,
}

impl UnitEvents {
    pub fn new(mut random: Random, lines: u64, numbers: &'static Numbers) -> UnitEvents {
        let inner = Random::new(random.next(), 0);
        let kind = random.pick(&["realistic", "nasty", "nasty", "sparse", "sparse"]);
        let may_leap = lines >= SHORTEST_WITH_LEAPS && random.one_in(4);
        let lines_below = if may_leap { lines } else { 0 };
        UnitEvents {
            log: sound(kind, inner, lines_below, numbers),
            random,
            byte: numbers.byte,
            may_leap,
            now: 0,
            taken: 0,
            line: Vec::new(),
            next: VecDeque::new(),
        }
    }

    fn letter(&mut self) -> u8 {
        self.random.pick(b"es")
    }

    fn send(&mut self, letter: u8, line: &[u8]) {
        self.next.push_back([&[letter, b' '], line].concat());
    }

    /// The time of a line, mostly one that passes.
    fn time_for(&mut self, time: Time) -> Time {
        let late = time < self.now && !self.random.one_in(12);
        let far = time > self.now + FAR && !self.may_leap;
        if far {
            self.now + self.random.below(3_000)
        } else if late {
            self.now
        } else {
            time
        }
    }

    /// A well-formed line of document 01's form.
    fn event(&mut self, line: &[u8], time: Time) {
        let time = self.time_for(time);
        self.now = self.now.max(time);
        let time = format!("{time:012x}");
        let byte = match self.random.one_in(70) {
            true => self.random.pick(&OTHER_BYTES),
            false => &self.byte[..],
        };
        // Two bytes in a frame line would make a sound one with another time.
        let frame = line.starts_with(b"02");
        let byte = if frame && byte.len() > 2 { b"03" } else { byte };
        let line = [&line[..2], byte, time.as_bytes(), &line[14..]].concat();
        let line = match self.random.one_in(90) {
            true => self.torn(line),
            false => line,
        };
        let letter = self.letter();
        let to_both = if self.taken < SETUP { 85 } else { 40 };
        self.send(letter, &line);
        if !REPORTS.contains(&&line[..line.len().min(2)]) && self.random.percent(to_both) {
            self.send(if letter == b'e' { b's' } else { b'e' }, &line);
        }
    }

    /// A line cut, longer, or with another character; never with another time that could pass.
    fn torn(&mut self, mut line: Vec<u8>) -> Vec<u8> {
        match self.random.below(6) {
            0 => line.truncate(self.random.below(line.len() as u64) as usize),
            1 => line.push(b'0'),
            2 => line.insert(0, b' '),
            3 => line.push(b'\r'),
            4 => line[0] = self.random.pick(b"0123456789abcdefgF"),
            _ => line[3] = self.random.pick(b"0123456789abcdefgF"),
        }
        line
    }

    /// A command to be refused with 2, 5, 6 or 14 to 17, at a time that passes or is late: here the
    /// refused ones tick as well.
    fn refused(&mut self) {
        let (kind, input, argument) = match self.random.below(8) {
            0 | 1 => (self.random.pick(&[0x00, 0x13, 0x55, 0x80, 0xff]), 3, 0),
            // A word: a report in option II, unknown in option I.
            2 => (0x12, self.random.below(17), 0x04ff),
            3 => (
                self.random.pick(&[0x04, 0x0b, 0x11, 0x0e]),
                self.random.pick(&[16, 255]),
                1,
            ),
            4 => (self.random.pick(&[0x0c, 0x0d]), 1, 0),
            5 => (
                self.random.pick(&[0x04, 0x05, 0x06, 0x07, 0x08, 0x11]),
                self.random.below(16),
                0xff00,
            ),
            _ => (self.random.pick(&[0x0a, 0x0b]), self.random.below(16), 0),
        };
        let time = match self.random.below(10) {
            0..=2 => self.now,
            3..=5 => self.now + self.random.between(1, 400),
            6 | 7 => self.now + self.random.between(1, 6_000),
            8 => self.now.saturating_sub(1),
            _ => self.now.saturating_sub(self.random.below(5_000)),
        };
        self.now = self.now.max(time);
        let byte = std::str::from_utf8(self.byte).expect("digits");
        let line = format!("{kind:02x}{byte}{time:012x}{input:02x}{argument:04x}");
        let letter = self.letter();
        self.send(letter, line.as_bytes());
    }

    fn plan(&mut self) {
        if self.random.one_in(20) && self.now < LAST_TIME - FAR {
            return self.refused();
        }
        if self.random.one_in(80) {
            let line = self.random.pick(&NO_EVENTS);
            return self.next.push_back(line.to_vec());
        }
        let mut line = std::mem::take(&mut self.line);
        line.clear();
        self.log.next_line(&mut line);
        self.taken += 1;
        let digits = line.strip_suffix(b"\n").unwrap_or(&line);
        match time_in_old_form(digits) {
            Some(time) => self.event(digits, time),
            None => {
                let letter = self.letter();
                self.send(letter, digits);
            }
        }
        self.line = line;
    }
}

impl LogSource for UnitEvents {
    fn next_line(&mut self, text: &mut Vec<u8>) {
        while self.next.is_empty() {
            self.plan();
        }
        text.extend(self.next.pop_front().expect("a line"));
        text.push(b'\n');
    }
}

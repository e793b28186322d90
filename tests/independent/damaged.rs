//! Logs that were in order (realistic or nasty) and then suffered: bits flipped, bytes
//! cut, doubled, put in, lines swapped, joined and doubled.

use crate::generate::{sound, time_in_old_form, Form, LogSource, Numbers};
use crate::line;
use crate::nasty::{LINES_AT_END_OF_TIME, SHORTEST_WITH_LEAPS};
use crate::random::Random;
use crate::selector::Time;

/// One line in so many suffers.
const DAMAGE: u64 = 12;

/// A damaged line that is still well-formed may carry any time; if accepted it makes the
/// later lines refused until they catch up. Such a line is let through only near the end
/// of the log, and seldom.
const FAR: Time = 500;

pub struct Damaged {
    sound: Box<dyn LogSource>,
    /// The byte of the log's lines, if it is of L11's form.
    byte: Option<&'static [u8; 2]>,
    random: Random,
    line: u64,
    lines: u64,
    last_lf_missing: bool,
    /// The latest time of a sound line so far.
    now: Time,
    spare: Vec<u8>,
}

impl Damaged {
    pub fn new(mut random: Random, lines: u64, numbers: &'static Numbers, form: Form) -> Damaged {
        let inner = Random::new(random.next(), 0);
        let sound: Box<dyn LogSource> = if random.percent(50) {
            sound("realistic", inner, lines, numbers)
        } else {
            sound("nasty", inner, lines, numbers)
        };
        let byte = match form {
            Form::Old => None,
            Form::New(_) => Some(numbers.byte),
        };
        let sound = form.of(sound, numbers, lines);
        let last_lf_missing = random.percent(50);
        Damaged {
            sound,
            byte,
            random,
            line: 0,
            lines,
            last_lf_missing,
            now: 0,
            spare: Vec::new(),
        }
    }

    pub fn last_lf_missing(&self) -> bool {
        self.last_lf_missing
    }

    fn damage(&mut self, log: &mut Vec<u8>) {
        let length = log.len();
        let place = self.random.below(length as u64) as usize;
        match self.random.below(13) {
            0 | 1 => log[place] ^= 1 << self.random.below(8),
            2..=4 => log[place] = self.random.pick(b"0123456789abcdef"),
            5 => drop(log.remove(place)),
            6 => drop(log.drain(place..(place + self.random.between(1, 9) as usize).min(length))),
            7 => log.insert(place, log[place]),
            8 => log.insert(place, self.random.next() as u8),
            9 => log.extend_from_within(..),
            10 => self.swap_with_next(log),
            11 => self.join_with_next(log),
            _ => log[place].make_ascii_uppercase(),
        }
    }

    fn swap_with_next(&mut self, log: &mut Vec<u8>) {
        self.spare.clear();
        self.sound.next_line(&mut self.spare);
        log.splice(0..0, self.spare.iter().copied());
    }

    fn join_with_next(&mut self, log: &mut Vec<u8>) {
        log.pop();
        self.sound.next_line(log);
    }

    /// The time of a well-formed line of the log's form, whatever its byte is: it may be the first.
    fn time_of(&self, line: &[u8]) -> Option<Time> {
        match self.byte {
            None => time_in_old_form(line),
            Some(_) => line::read(line).map(|line| line.time),
        }
    }

    /// The same of a sound line, which has the log's byte.
    fn time_of_sound(&self, line: &[u8]) -> Option<Time> {
        let of_this_log = self.byte.is_none_or(|byte| line.get(2..4) == Some(byte));
        self.time_of(line).filter(|_| of_this_log)
    }

    fn leaps(&self, log: &[u8]) -> bool {
        let mut lines = log.split(|&byte| byte == b'\n');
        lines.any(|line| self.time_of(line).is_some_and(|time| time > self.now + FAR))
    }
}

impl LogSource for Damaged {
    /// `log` must be empty, or what it holds is damaged as well.
    fn next_line(&mut self, log: &mut Vec<u8>) {
        self.line += 1;
        self.sound.next_line(log);
        let time = self.time_of_sound(&log[..log.len() - 1]).unwrap_or(0);
        self.now = self.now.max(time);
        if !self.random.one_in(DAMAGE) {
            return;
        }
        let before = log.clone();
        self.damage(log);
        let may_leap = self.lines >= SHORTEST_WITH_LEAPS
            && self.line + LINES_AT_END_OF_TIME > self.lines
            && self.random.one_in(10);
        if self.leaps(log) && !may_leap {
            *log = before;
        }
    }
}

//! L11's form: writes the option's byte into the lines of a log, seldom a wrong one or none,
//! and now and then begins the log with lines that are malformed, or that are refused and set
//! the profile all the same.

use crate::generate::{LogSource, Numbers};
use crate::random::Random;

/// One line in so many has another byte, none, or two; a log has one of these.
const WRONG: [u64; 6] = [u64::MAX, 400, 400, 400, 100, 25];

/// In a log up to this length the first sound line may carry the other option's byte, which
/// makes all others malformed.
const LONGEST_LOST: u64 = 600;

/// The digits of a plain line of document 01's form, and its LF.
const PLAIN: usize = 21;

/// Bytes that are neither option's, and things that are no byte.
const NO_OPTION: [&[u8]; 11] = [
    b"00", b"03", b"03", b"10", b"12", b"20", b"ff", b"0A", b"", b"0101", b"0102",
];

pub struct NewForm {
    source: Box<dyn LogSource>,
    random: Random,
    byte: &'static [u8; 2],
    wrong: u64,
    /// What the log begins with, before the source's lines.
    beginning: Vec<Vec<u8>>,
    line: Vec<u8>,
}

impl NewForm {
    pub fn new(
        source: Box<dyn LogSource>,
        mut random: Random,
        numbers: &Numbers,
        lines: u64,
    ) -> NewForm {
        let wrong = random.pick(&WRONG);
        let mut form = NewForm {
            source,
            random,
            byte: numbers.byte,
            wrong,
            beginning: Vec::new(),
            line: Vec::new(),
        };
        if form.random.percent(30) {
            form.plan_beginning(lines);
        }
        form
    }

    /// The last of these comes first.
    fn plan_beginning(&mut self, lines: u64) {
        if self.random.percent(50) {
            // Refused with 2, 5, 6 or 16: it sets the profile.
            let refused = self.random.pick(&[
                &b"ff000000000000000000"[..],
                b"0f000000000000010000",
                b"04000000000000000011",
                b"0b000000000000000000",
            ]);
            self.beginning.push(with_byte(refused, self.byte));
        }
        for _ in 0..self.random.below(4) {
            let wrong = self.random.pick(&NO_OPTION);
            let line = match self.random.below(5) {
                0 => Vec::new(),
                1 => with_byte(b"0f00000000000000000", self.byte),
                2 => with_byte(b"0f00000000000000000", self.other_byte()),
                _ => with_byte(b"0f000000000000000000", wrong),
            };
            self.beginning.push(line);
        }
        if lines <= LONGEST_LOST && self.random.one_in(20) {
            let other = self.other_byte();
            self.beginning
                .push(with_byte(b"0f000000000000000000", other));
        }
    }

    fn other_byte(&self) -> &'static [u8; 2] {
        match self.byte {
            b"01" => b"02",
            _ => b"01",
        }
    }

    fn any_byte(&mut self) -> &'static [u8] {
        if self.wrong == u64::MAX || !self.random.one_in(self.wrong) {
            return self.byte;
        }
        match self.random.below(3) {
            0 => self.other_byte(),
            _ => self.random.pick(&NO_OPTION),
        }
    }
}

/// A line of document 01's form with something written in after its first two digits.
fn with_byte(line: &[u8], byte: &[u8]) -> Vec<u8> {
    match line {
        [first, second, rest @ ..] if *second != b'\n' => [&[*first, *second], byte, rest].concat(),
        _ => line.to_vec(),
    }
}

impl LogSource for NewForm {
    fn next_line(&mut self, log: &mut Vec<u8>) {
        if let Some(line) = self.beginning.pop() {
            log.extend(line);
            log.push(b'\n');
            return;
        }
        self.line.clear();
        self.source.next_line(&mut self.line);
        if self.line.starts_with(b"?") {
            log.extend_from_slice(&self.line);
        } else {
            let byte = self.any_byte();
            // Two bytes in a frame line or in a torn one would make a sound one with another time.
            let one_only = self.line.starts_with(b"02") || self.line.len() < PLAIN;
            let byte = if one_only && byte.len() > 2 {
                b"03"
            } else {
                byte
            };
            log.extend(with_byte(&self.line, byte));
        }
    }
}

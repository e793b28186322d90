//! Logs of option II with 1,544 kbit/s words (L12): one made without words is taken line by line, some
//! of its inputs are made to be of the third kind where it makes them lines, and their codes
//! become words. In between come words that are nearly equal, words and codes for inputs of
//! another kind, and kinds set to what they are.

use crate::generate::{event_line, LogSource};
use crate::hex;
use crate::random::Random;
use crate::selector::{Code, Time, Word};

/// The words of table 6 by number, spelled out here so that the logs don't lean on the rules.
const LISTED: [Word; 10] = [
    0x04ff, 0x08ff, 0x0cff, 0x78ff, 0x7cff, 0x10ff, 0x22ff, 0x28ff, 0x40ff, 0x30ff,
];

/// What a code is turned into: the word of the same quality, and two unlisted ones for the
/// codes that read as invalid.
const BY_CODE: [Word; 16] = [
    0x08ff, 0x04ff, 0x00ff, 0xff04, 0x78ff, 0xffff, 0x04fe, 0x0cff, 0x28ff, 0x0000, 0x10ff, 0x28ff,
    0x22ff, 0x7cff, 0x40ff, 0x30ff,
];

/// Words not listed, each a bit or two from a listed one, or the other way round.
const UNLISTED: [Word; 8] = [
    0x0000, 0xffff, 0x00ff, 0xff04, 0x04fe, 0x04f7, 0x84ff, 0x0800,
];

const PLAIN: usize = 20;

pub struct Words {
    inner: Box<dyn LogSource>,
    random: Random,
    /// The inputs that are of the third kind where the log makes them lines.
    of_words: [bool; 16],
    /// The kind that each input was last set to.
    kinds: [u16; 16],
    now: Time,
    /// The inputs whose third kind is still to be set.
    setup: Vec<u8>,
    line: Vec<u8>,
    /// Lines to come: kind, input, argument.
    next: Vec<(u8, u8, u16)>,
}

impl Words {
    pub fn new(inner: Box<dyn LogSource>, mut random: Random) -> Words {
        let mut of_words = [false; 16];
        for one in &mut of_words {
            *one = random.percent(60);
        }
        let setup = (0..16u8).filter(|n| of_words[usize::from(*n)]).collect();
        Words {
            inner,
            random,
            of_words,
            kinds: [0; 16],
            now: 0,
            setup,
            line: Vec::new(),
            next: Vec::new(),
        }
    }

    fn send(&mut self, kind: u8, input: u8, argument: u16, log: &mut Vec<u8>) {
        if kind == 0x10 && argument < 3 {
            self.kinds[usize::from(input)] = argument;
        }
        event_line(log, kind, self.now, input, argument);
    }

    /// An input of the third kind, if there is one.
    fn some_input(&mut self) -> u8 {
        for _ in 0..16 {
            let n = self.random.below(16) as usize;
            if self.kinds[n] == 2 {
                return n as u8;
            }
        }
        self.random.below(16) as u8
    }

    fn any_word(&mut self) -> Word {
        match self.random.below(8) {
            0..=4 => self.random.pick(&LISTED),
            5 | 6 => self.random.pick(&UNLISTED),
            _ => self.random.below(1 << 16) as Word,
        }
    }

    /// Something of words alone, at the time of the line before.
    fn plan(&mut self) {
        let n = self.some_input();
        let word = self.any_word();
        let other = match self.random.below(3) {
            0 => word ^ 1 << self.random.below(16),
            1 => self.random.pick(&UNLISTED),
            _ => self.any_word(),
        };
        let mut steps = Vec::new();
        match self.random.below(12) {
            0 => steps.extend([(0x12, n, word); 3]),
            1 => steps.extend([(0x12, n, word), (0x12, n, word), (0x12, n, other)]),
            2 => steps.extend([(0x12, n, word), (0x12, n, other), (0x12, n, word)]),
            // Two words and the same kind once more: forgotten.
            3 => steps.extend([
                (0x12, n, word),
                (0x12, n, word),
                (0x10, n, 2),
                (0x12, n, word),
            ]),
            4 => {
                let unlisted = self.random.pick(&UNLISTED);
                let another = self.random.pick(&UNLISTED);
                let heard = [unlisted, unlisted, another, another, another];
                steps.extend(heard.map(|word| (0x12, n, word)));
            }
            // Three equal ones, then the kind set to what it is.
            5 => steps.extend([
                (0x12, n, word),
                (0x12, n, word),
                (0x12, n, word),
                (0x10, n, 2),
            ]),
            6 => {
                let kind = self.random.pick(&[0x03, 0x12]);
                let any = self.random.below(16) as u8;
                let argument = if kind == 0x12 { word } else { word % 16 };
                steps.extend([(kind, any, argument); 3]);
            }
            7 => steps.push((0x10, n, self.random.pick(&[2, 2, 3, 256, 258, 0xffff]))),
            8 => steps.push((0x12, self.random.pick(&[n, 16, 255]), other)),
            // A fail between: forgotten; and none recorded while it lasts.
            9 => steps.extend([
                (0x12, n, word),
                (0x12, n, word),
                (0x01, n, 1),
                (0x12, n, word),
                (0x01, n, 0),
                (0x12, n, word),
            ]),
            10 => steps.push((0x0e, n, self.random.below(2) as u16)),
            _ => {
                let set = self.random.below(3) as u16;
                steps.extend([
                    (0x10, n, set),
                    (0x12, n, word),
                    (0x12, n, word),
                    (0x12, n, word),
                ]);
            }
        }
        steps.reverse();
        self.next = steps;
    }

    /// Kind, time, input and argument of a plain line that is in order.
    fn plain(&self) -> Option<(u8, Time, u8, u16)> {
        let digits = self.line.strip_suffix(b"\n")?;
        if digits.len() != PLAIN || !hex::all_digits(digits) {
            return None;
        }
        let text = std::str::from_utf8(digits).ok()?;
        let number = |from: usize, to: usize| u64::from_str_radix(&text[from..to], 16).ok();
        Some((
            number(0, 2)? as u8,
            number(2, 14)?,
            number(14, 16)? as u8,
            number(16, 20)? as u16,
        ))
    }

    /// The line of the log without words, its codes and kinds turned into words.
    fn translated(&mut self, log: &mut Vec<u8>) {
        self.line.clear();
        self.inner.next_line(&mut self.line);
        let Some((kind, time, input, argument)) = self.plain() else {
            log.extend_from_slice(&self.line);
            return;
        };
        let n = usize::from(input);
        let late = time < self.now;
        match kind {
            0x10 if input < 16 && self.of_words[n] && argument == 0 && !late => {
                self.now = time;
                self.send(0x10, input, 2, log);
            }
            0x03 if input < 16 && self.kinds[n] == 2 && argument < 16 => {
                let word = match self.random.below(12) {
                    0 => self.any_word(),
                    1 => BY_CODE[usize::from(argument as Code)] ^ 1 << self.random.below(16),
                    _ => BY_CODE[usize::from(argument as Code)],
                };
                event_line(log, 0x12, time, input, word);
            }
            0x10 if input < 16 && argument < 2 && !late => {
                self.kinds[n] = argument;
                log.extend_from_slice(&self.line);
            }
            _ => log.extend_from_slice(&self.line),
        }
        // The last time that a line in order has gone to; it may be too late for what it is.
        if !late && (0x01..=0x12).contains(&kind) && input < 16 {
            self.now = self.now.max(time);
        }
    }
}

impl LogSource for Words {
    fn next_line(&mut self, log: &mut Vec<u8>) {
        if let Some(n) = self.setup.pop() {
            return self.send(0x10, n, 2, log);
        }
        if let Some((kind, input, argument)) = self.next.pop() {
            return self.send(kind, input, argument, log);
        }
        if self.random.one_in(12) {
            self.plan();
            return self.next_line(log);
        }
        self.translated(log);
    }
}

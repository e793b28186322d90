//! Random event logs. The same seed and the same number of lines give the same bytes on
//! every machine.

use std::io::{self, Write};

use crate::damaged::Damaged;
use crate::headers::{Frames, Headers};
use crate::hex;
use crate::nasty::Nasty;
use crate::new_form::NewForm;
use crate::questions::Questions;
use crate::random::Random;
use crate::realistic::Realistic;
use crate::selector::{Code, Time};
use crate::sparse::Sparse;
use crate::unit_events::UnitEvents;
use crate::words::Words;

/// "time at or above 2^48" can't come from a log; this is the last one that can.
pub const LAST_TIME: Time = (1 << 48) - 1;

/// The numbers and codes of an option, spelled out here so that the logs don't lean on the
/// rules under test.
pub struct Numbers {
    /// L11: the byte of its lines, in digits.
    pub byte: &'static [u8; 2],
    /// Codes to be heard, the usual ones more often.
    pub codes: &'static [Code],
    /// The codes of qualities that can be followed, the best first.
    pub followed: &'static [Code],
    /// Codes that read as invalid.
    pub invalid: [Code; 4],
    /// Fixed qualities run from 1 to this, which is not to be used; floors from 1 to that.
    pub last_fixed: u16,
    pub last_floor: u16,
    /// Whether there are inputs of the third kind (L12).
    pub words: bool,
    /// A kind of event that is unknown, and an argument of kind 10 that is out of range, with
    /// L12 and without.
    pub unknown: u8,
    pub beyond_kinds: u16,
}

/// Not to be used, in both options.
pub const DO_NOT_USE: Code = 15;

pub const OPTION_ONE: Numbers = Numbers {
    byte: b"01",
    codes: &[2, 2, 2, 4, 4, 4, 8, 8, 11, 11, 15, 0, 2, 4, 1, 14],
    followed: &[2, 4, 8, 11],
    invalid: [0, 1, 3, 14],
    last_fixed: 5,
    last_floor: 4,
    words: false,
    unknown: 0x12,
    beyond_kinds: 2,
};

/// PROV, 1110, is among those that can be followed: where it is placed decides.
pub const OPTION_TWO: Numbers = Numbers {
    byte: b"02",
    codes: &[1, 1, 0, 0, 7, 7, 4, 13, 10, 12, 14, 14, 14, 15, 2, 8],
    followed: &[1, 0, 7, 4, 13, 10, 14, 14, 12],
    invalid: [2, 3, 5, 11],
    last_fixed: 10,
    last_floor: 8,
    words: false,
    unknown: 0x14,
    beyond_kinds: 3,
};

pub const WITH_WORDS: Numbers = Numbers {
    words: true,
    ..OPTION_TWO
};

impl Numbers {
    fn of(option: &str) -> io::Result<&'static Numbers> {
        match option {
            "1" => Ok(&OPTION_ONE),
            "2" => Ok(&OPTION_TWO),
            "words" => Ok(&WITH_WORDS),
            _ => Err(not_understood(option)),
        }
    }

    /// Any fixed quality; in option II PROV (9) often.
    pub fn any_fixed(&self, random: &mut Random) -> u16 {
        if self.last_fixed > 5 && random.percent(25) {
            return 9;
        }
        random.between(1, u64::from(self.last_fixed)) as u16
    }

    pub fn any_floor(&self, random: &mut Random) -> u16 {
        random.between(1, u64::from(self.last_floor)) as u16
    }

    /// A good code, mostly one of the best.
    pub fn good_code(&self, random: &mut Random) -> Code {
        match random.below(3) {
            0 => random.pick(self.followed),
            _ => self.followed[random.below(2) as usize],
        }
    }
}

/// Something that makes a log, line after line.
pub trait LogSource {
    /// Adds the next line, with its LF.
    fn next_line(&mut self, log: &mut Vec<u8>);
}

impl LogSource for Box<dyn LogSource> {
    fn next_line(&mut self, log: &mut Vec<u8>) {
        self.as_mut().next_line(log);
    }
}

const FLUSH_AT: usize = 60_000;

/// The form of a log's lines: document 01's, or L11's with what its bytes are drawn from.
pub enum Form {
    Old,
    New(Random),
}

impl Form {
    /// A log of document 01's form in this one.
    pub fn of(self, log: Box<dyn LogSource>, numbers: &Numbers, lines: u64) -> Box<dyn LogSource> {
        match self {
            Form::Old => log,
            Form::New(random) => Box::new(NewForm::new(log, random, numbers, lines)),
        }
    }
}

/// A log in order, or as much as its kind has it, with words where the option has them. It has
/// document 01's form.
pub fn sound(
    kind: &str,
    mut random: Random,
    lines: u64,
    numbers: &'static Numbers,
) -> Box<dyn LogSource> {
    let for_words = numbers.words.then(|| Random::new(random.next(), 1));
    let log: Box<dyn LogSource> = match kind {
        "realistic" => Box::new(Realistic::new(random, numbers)),
        "nasty" => Box::new(Nasty::new(random, lines, numbers)),
        _ => Box::new(Sparse::new(random, numbers)),
    };
    match for_words {
        Some(random) => Box::new(Words::new(log, random)),
        None => log,
    }
}

/// `SEED` is a number, or `SEED.PIECE` for the further logs of one seed; `OPTION` 1, 2 or `words`,
/// and after it `old` for document 01's form.
pub fn generate(
    kind: &str,
    seed: &str,
    lines: &str,
    option: &[&str],
    output: &mut impl Write,
) -> io::Result<()> {
    let lines = number(lines)?;
    let (seed, piece) = seed.split_once('.').unwrap_or((seed, "0"));
    let (seed, piece) = (number(seed)?, number(piece)?);
    let (option, form) = match option {
        [] => ("1", Form::New(Random::new(!seed, piece))),
        [option] => (*option, Form::New(Random::new(!seed, piece))),
        [option, "old"] => (*option, Form::Old),
        [_, more @ ..] => return Err(not_understood(&more.join(" "))),
    };
    let numbers = Numbers::of(option)?;
    let random = Random::new(seed, piece);
    let source: Box<dyn LogSource> = match kind {
        "realistic" | "nasty" | "sparse" => sound(kind, random, lines, numbers),
        "headers" => Box::new(Headers::new(random, numbers)),
        "questions" => Box::new(Questions::new(random, lines, numbers)),
        "frames" => return write_lines(Frames::new(random), lines, output),
        "unit" => return write_lines(UnitEvents::new(random, lines, numbers), lines, output),
        "damaged" => {
            let damaged = Damaged::new(random, lines, numbers, form);
            return write_damaged(damaged, lines, output);
        }
        _ => return Err(not_understood(kind)),
    };
    write_lines(form.of(source, numbers, lines), lines, output)
}

fn number(text: &str) -> io::Result<u64> {
    text.parse().map_err(|_| not_understood(text))
}

fn not_understood(text: &str) -> io::Error {
    io::Error::new(
        io::ErrorKind::InvalidInput,
        format!("not understood: {text}"),
    )
}

fn write_lines(mut source: impl LogSource, lines: u64, output: &mut impl Write) -> io::Result<()> {
    let mut log = Vec::with_capacity(2 * FLUSH_AT);
    for _ in 0..lines {
        source.next_line(&mut log);
        if log.len() >= FLUSH_AT {
            output.write_all(&log)?;
            log.clear();
        }
    }
    output.write_all(&log)
}

/// Damage can make two lines of one and one of two; the log is cut after `lines` LFs, and
/// of every other log the last LF is missing.
fn write_damaged(mut source: Damaged, lines: u64, output: &mut impl Write) -> io::Result<()> {
    let mut log = Vec::with_capacity(2 * FLUSH_AT);
    let mut left = lines;
    while left > 0 {
        log.clear();
        source.next_line(&mut log);
        for line in log.split_inclusive(|&byte| byte == b'\n') {
            let whole = line.ends_with(b"\n");
            if left == 1 && whole && source.last_lf_missing() {
                output.write_all(&line[..line.len() - 1])?;
            } else {
                output.write_all(line)?;
            }
            left -= u64::from(whole);
            if left == 0 {
                break;
            }
        }
    }
    Ok(())
}

/// The time of a line of document 01's form, if it is one.
pub fn time_in_old_form(line: &[u8]) -> Option<Time> {
    let frame = line.starts_with(b"02") && line.len() % 2 == 0;
    let right_length = line.len() == 20 || frame && (20..=3_048).contains(&line.len());
    if !right_length || !hex::all_digits(line) {
        return None;
    }
    let digits = std::str::from_utf8(&line[2..14]).ok()?;
    Time::from_str_radix(digits, 16).ok()
}

/// Adds an event's line, in document 01's form: the byte is written in by `new_form.rs`. What
/// doesn't fit its bytes is cut off above.
pub fn event_line(log: &mut Vec<u8>, kind: u8, time: Time, input: u8, argument: u16) {
    event_digits(log, kind, time, input, argument);
    log.push(b'\n');
}

pub fn frame_line(log: &mut Vec<u8>, time: Time, input: u8, argument: u16, frame: &[u8]) {
    event_digits(log, 0x02, time, input, argument);
    hex::write_octets(frame, log);
    log.push(b'\n');
}

fn event_digits(log: &mut Vec<u8>, kind: u8, time: Time, input: u8, argument: u16) {
    hex::write_octets(&[kind], log);
    hex::write_octets(&time.to_be_bytes()[2..], log);
    hex::write_octets(&[input], log);
    hex::write_octets(&argument.to_be_bytes(), log);
}

/// A frame without its source address, spelled out here so that the logs don't lean on
/// the writer under test in `frame.rs`.
const FRAME: [u8; 60] = [
    0x01, 0x80, 0xc2, 0x00, 0x00, 0x02, 0, 0, 0, 0, 0, 0, 0x88, 0x09, 0x0a, 0x00, 0x19, 0xa7, 0x00,
    0x01, 0x10, 0, 0, 0, 0x01, 0x00, 0x04, 0, 0, 0, 0, 0, 0, 0, 0, 0, 0, 0, 0, 0, 0, 0, 0, 0, 0, 0,
    0, 0, 0, 0, 0, 0, 0, 0, 0, 0, 0, 0, 0, 0,
];

pub fn sound_frame(source: [u8; 6], event_flag: bool, code: Code) -> [u8; 60] {
    let mut frame = FRAME;
    frame[6..12].copy_from_slice(&source);
    frame[20] |= u8::from(event_flag) << 3;
    frame[27] = code;
    frame
}

pub fn random_octets(random: &mut Random, octets: &mut [u8]) {
    for octet in octets {
        *octet = random.next() as u8;
    }
}

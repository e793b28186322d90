//! Log lines and questions to the senders (L1): `? PORT TIME LENGTH SOURCE`. The log lines
//! come from one of the other kinds; the questions go to a few ports, each with a clock of
//! its own, aimed at 1,000 ms after its frames, at windows of ten frames, and at changes of
//! code that come and go between two questions.

use std::collections::VecDeque;

use crate::generate::{event_line, random_octets, sound, time_in_old_form, LogSource, Numbers};
use crate::random::Random;
use crate::selector::Time;

const PORTS: usize = 4;

/// What is done next; a change of code is one of the port's own sending.
enum Step {
    Ask { place: usize, after: Time },
    Toggle { place: usize },
}

pub struct Questions {
    random: Random,
    log: Box<dyn LogSource>,
    ports: [u8; PORTS],
    /// The time of the last question to each of the ports.
    asked: [Time; PORTS],
    sending: [bool; PORTS],
    plan: VecDeque<Step>,
    /// The latest time of a log line so far, for the lines sent in between.
    log_time: Time,
}

impl Questions {
    pub fn new(mut random: Random, lines: u64, numbers: &'static Numbers) -> Questions {
        let inner = Random::new(random.next(), 0);
        let log: Box<dyn LogSource> = match random.below(3) {
            0 => sound("realistic", inner, lines, numbers),
            1 => sound("nasty", inner, lines / 6, numbers),
            _ => sound("sparse", inner, lines, numbers),
        };
        let mut ports = [0; PORTS];
        for port in &mut ports {
            *port = random.below(16) as u8;
        }
        Questions {
            random,
            log,
            ports,
            asked: [0; PORTS],
            sending: [true; PORTS],
            plan: VecDeque::new(),
            log_time: 0,
        }
    }

    fn plan_story(&mut self) {
        let place = self.random.below(PORTS as u64) as usize;
        match self.random.below(6) {
            0 => self.story_every_second(place),
            1 | 2 => self.story_full_window(place),
            3 => self.story_changed_back(place),
            4 => self.story_change_at_a_second(place),
            _ => self.story_long_silence(place),
        }
    }

    fn ask(&mut self, place: usize, after: Time) {
        self.plan.push_back(Step::Ask { place, after });
    }

    fn ask_between(&mut self, place: usize, soonest: Time, latest: Time) {
        let after = self.random.between(soonest, latest);
        self.ask(place, after);
    }

    fn toggle(&mut self, place: usize) {
        self.plan.push_back(Step::Toggle { place });
    }

    /// Questions just before, at and after a second since the last frame.
    fn story_every_second(&mut self, place: usize) {
        for _ in 0..self.random.between(1, 4) {
            self.ask_between(place, 998, 999);
            self.ask_between(place, 0, 2);
            self.ask_between(place, 0, 2);
        }
    }

    /// Ten event frames, and the questions about the millisecond in which the first of them
    /// leaves the window.
    fn story_full_window(&mut self, place: usize) {
        let gap = self.random.pick(&[0, 1, 1, 50, 99, 100, 111, 112]);
        // Nothing of before in the window, so that the first of the ten is known.
        self.ask(place, 1_000);
        let frames = self.random.between(9, 12);
        for _ in 0..frames {
            self.toggle(place);
            self.ask(place, gap);
        }
        let rest = 1_000_u64.saturating_sub(gap * 9);
        self.toggle(place);
        self.ask(place, rest.saturating_sub(2));
        for _ in 0..self.random.between(1, 4) {
            self.ask(place, 1);
        }
        if self.random.percent(50) {
            self.toggle(place);
        }
        self.ask_between(place, 0, gap + 1);
    }

    /// A change that is taken back before it could be sent.
    fn story_changed_back(&mut self, place: usize) {
        self.ask(place, 1_000);
        if self.random.percent(50) {
            for _ in 0..10 {
                self.toggle(place);
                self.ask(place, 1);
            }
        }
        self.toggle(place);
        if self.random.percent(50) {
            self.ask_between(place, 0, 2);
        }
        self.toggle(place);
        self.ask_between(place, 0, 5);
        self.ask_between(place, 980, 1_010);
    }

    /// A change just when an information frame would be due.
    fn story_change_at_a_second(&mut self, place: usize) {
        self.ask(place, 1_000);
        self.toggle(place);
        self.ask_between(place, 999, 1_001);
        self.ask_between(place, 998, 1_001);
    }

    fn story_long_silence(&mut self, place: usize) {
        self.ask_between(place, 2_000, 100_000);
        self.ask_between(place, 0, 1);
        self.ask_between(place, 998, 1_000);
    }

    fn take_step(&mut self, step: Step, text: &mut Vec<u8>) {
        match step {
            Step::Ask { place, after } => {
                self.asked[place] += after;
                let (port, time) = (self.ports[place], self.asked[place]);
                let source = self.source();
                question(text, &port.to_string(), &time.to_string(), "60", &source);
            }
            Step::Toggle { place } => {
                self.sending[place] = !self.sending[place];
                let sending = u16::from(self.sending[place]);
                event_line(text, 0x0e, self.log_time, self.ports[place], sending);
            }
        }
    }

    fn source(&mut self) -> String {
        let mut octets = [2, 0, 0, 0, 0, 1];
        if self.random.percent(30) {
            random_octets(&mut self.random, &mut octets);
        }
        octets.iter().map(|octet| format!("{octet:02x}")).collect()
    }

    /// A question to be refused with one number or with several.
    fn refused(&mut self, text: &mut Vec<u8>) {
        let place = self.random.below(PORTS as u64) as usize;
        let mut port = self.ports[place].to_string();
        let mut time = (self.asked[place] + self.random.below(2_000)).to_string();
        let mut length = self
            .random
            .pick(&["60", "61", "1514", "65536", "18446744073709551615"])
            .to_string();
        let mut source = self.source();
        for _ in 0..self.random.between(1, 3) {
            match self.random.below(6) {
                0 => time = self.random.pick(&TOO_LATE).to_string(),
                1 => {
                    let back = self.random.pick(&[1, 1, 2, 1_000]);
                    time = self.asked[place].saturating_sub(back).to_string();
                }
                2 => port = self.random.pick(&NO_PORTS).to_string(),
                3 => length = self.random.pick(&["59", "0", "28", "1"]).to_string(),
                _ => source = self.random.pick(&NO_ADDRESSES).to_string(),
            }
        }
        question(text, &port, &time, &length, &source);
    }

    /// A line that begins with `?` and is no question.
    fn torn(&mut self, text: &mut Vec<u8>) {
        let parts = format!("? {} {} 60 020000000001", self.ports[0], self.asked[0]);
        let line = match self.random.below(14) {
            0 => "?".to_string(),
            1 => parts.replacen(' ', "", 1),
            2 => parts.replacen(' ', "  ", 1),
            3 => parts + " ",
            4 => parts + " 0",
            5 => parts.replace("60", "3c"),
            6 => parts.replace("60", "+60"),
            7 => parts.replace("60", "-1"),
            8 => parts.replace("020000000001", "0A0000000001"),
            9 => parts.replace("020000000001", "02000000000"),
            10 => parts.replace("020000000001", &"00".repeat(33)),
            11 => parts.replace("020000000001", ""),
            12 => parts.replace(" 60 ", " 18446744073709551616 "),
            _ => parts.replace(" 60", ""),
        };
        text.extend_from_slice(line.as_bytes());
        text.push(b'\n');
    }

    /// The next line of the log, remembering the latest time.
    fn log_line(&mut self, text: &mut Vec<u8>) {
        let start = text.len();
        self.log.next_line(text);
        if let Some(time) = time_in_old_form(text[start..].trim_ascii_end()) {
            self.log_time = self.log_time.max(time);
        }
    }
}

const TOO_LATE: [&str; 4] = [
    "281474976710656",
    "281474976710657",
    "9223372036854775808",
    "18446744073709551615",
];
const NO_PORTS: [&str; 6] = ["16", "17", "255", "256", "65536", "18446744073709551615"];
const NO_ADDRESSES: [&str; 5] = [
    "-",
    "02",
    "0200000000",
    "02000000000102",
    "00000000000000000000",
];

fn question(text: &mut Vec<u8>, port: &str, time: &str, length: &str, source: &str) {
    let line = format!("? {port} {time} {length} {source}\n");
    text.extend_from_slice(line.as_bytes());
}

impl LogSource for Questions {
    fn next_line(&mut self, text: &mut Vec<u8>) {
        if self.random.percent(15) {
            return self.log_line(text);
        }
        if self.random.percent(4) {
            return self.refused(text);
        }
        if self.random.percent(2) {
            return self.torn(text);
        }
        if self.random.percent(1) {
            let place = self.random.below(PORTS as u64) as usize;
            self.ports[place] = self.random.below(16) as u8;
        }
        if self.plan.is_empty() {
            self.plan_story();
        }
        if let Some(step) = self.plan.pop_front() {
            self.take_step(step, text);
        }
    }
}

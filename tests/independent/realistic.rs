//! Logs as a timing card would see them: sixteen inputs, half of them Ethernet, frames and
//! line codes about each second, failures that come and go, an operator now and then.

use std::collections::VecDeque;

use crate::generate::{event_line, frame_line, random_octets, sound_frame, LogSource, Numbers};
use crate::random::Random;
use crate::selector::{Code, Time};

const WAITS: [u16; 8] = [0, 1, 1, 1, 2, 3, 5, 12];

/// What lies at the far end of an input.
#[derive(Clone, Copy)]
struct Neighbour {
    ethernet: bool,
    good: bool,
    code: Code,
    source: [u8; 6],
    next_report: Time,
    /// Reports still to come at once after a change of code.
    hurried: u8,
    next_signal: Time,
    locked_out: bool,
}

enum Cause {
    Report(usize),
    Signal(usize),
    Tick,
    Operator,
}

pub struct Realistic {
    random: Random,
    numbers: &'static Numbers,
    now: Time,
    neighbours: [Neighbour; 16],
    setup: VecDeque<(u8, u8, u16)>,
    next_tick: Time,
    next_operator: Time,
    quality_mode: bool,
    switched: bool,
}

impl Realistic {
    pub fn new(mut random: Random, numbers: &'static Numbers) -> Realistic {
        let mut source = [0x02, 0, 0, 0, 0, 0];
        random_octets(&mut random, &mut source[1..5]);
        let first_ethernet = random.below(2) as usize;
        let mut neighbours = [Neighbour {
            ethernet: false,
            good: false,
            code: numbers.followed[0],
            source,
            next_report: 0,
            hurried: 0,
            next_signal: 0,
            locked_out: false,
        }; 16];
        for (n, neighbour) in neighbours.iter_mut().enumerate() {
            neighbour.ethernet = n % 2 == first_ethernet;
            neighbour.source[5] = n as u8;
            neighbour.code = random.pick(numbers.codes);
            neighbour.next_report = random.between(500, 3_000);
            neighbour.next_signal = random.between(100, 2_000);
        }
        let mut realistic = Realistic {
            random,
            numbers,
            now: 0,
            neighbours,
            setup: VecDeque::new(),
            next_tick: 1_000,
            next_operator: 5_000,
            quality_mode: true,
            switched: false,
        };
        realistic.plan_setup();
        realistic
    }

    /// The log starts by configuring the inputs.
    fn plan_setup(&mut self) {
        for n in 0..16 {
            if self.neighbours[usize::from(n)].ethernet {
                self.setup.push_back((0x10, n, 1));
            }
            let priority = self.random.between(1, 16) as u16;
            self.setup.push_back((0x04, n, priority));
            let wait = self.random.pick(&WAITS);
            self.setup.push_back((0x07, n, wait));
            if self.random.percent(60) {
                let hold_off = self.random.between(300, 1_800) as u16;
                self.setup.push_back((0x06, n, hold_off));
            }
            if self.random.percent(8) {
                let fixed = self.numbers.any_fixed(&mut self.random);
                self.setup.push_back((0x08, n, fixed));
            }
            if self.random.percent(10) {
                self.setup.push_back((0x0e, n, 0));
            }
            if self.random.percent(15) {
                let floor = self.numbers.any_floor(&mut self.random);
                self.setup.push_back((0x11, n, floor));
            }
        }
    }

    fn next_cause(&self) -> (Time, Cause) {
        let mut first = (self.next_tick, Cause::Tick);
        if self.next_operator < first.0 {
            first = (self.next_operator, Cause::Operator);
        }
        for (n, neighbour) in self.neighbours.iter().enumerate() {
            if neighbour.next_report < first.0 {
                first = (neighbour.next_report, Cause::Report(n));
            }
            if neighbour.next_signal < first.0 {
                first = (neighbour.next_signal, Cause::Signal(n));
            }
        }
        first
    }

    /// False if nothing came of it: most reports stop while a signal fails.
    fn happen(&mut self, cause: Cause, log: &mut Vec<u8>) -> bool {
        match cause {
            Cause::Tick => {
                self.next_tick = self.now + self.random.between(400, 700);
                event_line(log, 0x0f, self.now, 0, 0);
                true
            }
            Cause::Operator => {
                self.next_operator = self.now + self.random.between(1_000, 15_000);
                self.command(log);
                true
            }
            Cause::Signal(n) => {
                self.signal(n, log);
                true
            }
            Cause::Report(n) => self.report(n, log),
        }
    }

    fn signal(&mut self, n: usize, log: &mut Vec<u8>) {
        let lasts = if self.neighbours[n].good {
            match self.random.below(10) {
                0..=3 => self.random.between(10, 290),
                4..=6 => self.random.between(300, 2_500),
                _ => self.random.between(5_000, 120_000),
            }
        } else {
            match self.random.below(4) {
                0 => self.random.between(200, 20_000),
                _ => self.random.between(30_000, 900_000),
            }
        };
        let neighbour = &mut self.neighbours[n];
        neighbour.good = !neighbour.good;
        neighbour.next_signal = self.now + lasts;
        event_line(log, 0x01, self.now, n as u8, u16::from(!neighbour.good));
    }

    fn report(&mut self, n: usize, log: &mut Vec<u8>) -> bool {
        let changed = self.random.one_in(120);
        if changed {
            self.neighbours[n].code = self.random.pick(self.numbers.codes);
            self.neighbours[n].hurried = 3;
        }
        let gap = self.gap_after_report(n);
        self.neighbours[n].next_report = self.now + gap;
        if !self.neighbours[n].good && !self.random.one_in(10) {
            return false;
        }
        if self.neighbours[n].ethernet {
            self.frame(n, changed, log);
        } else {
            let code = self.neighbours[n].code;
            event_line(log, 0x03, self.now, n as u8, u16::from(code));
        }
        true
    }

    fn gap_after_report(&mut self, n: usize) -> Time {
        if self.neighbours[n].hurried > 0 {
            self.neighbours[n].hurried -= 1;
            return self.random.between(1, 100);
        }
        if self.random.one_in(150) {
            // A silent neighbour: an Ethernet input's frame expires.
            return self.random.between(4_500, 30_000);
        }
        self.random.between(900, 1_100)
    }

    fn frame(&mut self, n: usize, event_flag: bool, log: &mut Vec<u8>) {
        let neighbour = self.neighbours[n];
        let sound = sound_frame(neighbour.source, event_flag, neighbour.code);
        let mut frame = [0; 1_514];
        frame[..60].copy_from_slice(&sound);
        let length = if self.random.percent(2) {
            self.random.between(61, 1_514)
        } else {
            60
        };
        if self.random.percent(3) {
            random_octets(&mut self.random, &mut frame[28..length as usize]);
        }
        if self.random.one_in(400) {
            frame[self.random.below(28) as usize] ^= 1 << self.random.below(8);
        }
        frame_line(log, self.now, n as u8, 0, &frame[..length as usize]);
    }

    fn command(&mut self, log: &mut Vec<u8>) {
        let n = self.random.below(16) as u8;
        let at = usize::from(n);
        let (kind, input, argument) = match self.random.below(100) {
            _ if self.switched && self.random.percent(35) => (0x0c, 0, 0),
            _ if !self.quality_mode && self.random.percent(50) => (0x0d, 0, 1),
            0..=19 => {
                self.neighbours[at].locked_out = !self.neighbours[at].locked_out;
                (0x05, n, u16::from(self.neighbours[at].locked_out))
            }
            20..=29 => (0x04, n, self.random.between(0, 16) as u16),
            30..=41 => (0x0a, n, 0),
            42..=61 => (0x0b, n, 0),
            62..=73 => (0x09, n, 0),
            74..=79 => (0x06, n, self.random.between(300, 1_800) as u16),
            80..=85 => (0x07, n, self.random.pick(&WAITS)),
            86 | 87 => (0x08, n, 0),
            88 | 89 => (0x08, n, self.numbers.any_fixed(&mut self.random)),
            90..=93 => (0x0e, n, self.random.below(2) as u16),
            94 => (0x11, n, self.numbers.any_floor(&mut self.random)),
            95..=96 => (0x0d, 0, 0),
            _ => (0x10, n, self.new_kind(at)),
        };
        match kind {
            0x0a | 0x0b => self.switched = true,
            0x0c => self.switched = false,
            0x0d => self.quality_mode = argument == 1,
            _ => {}
        }
        event_line(log, kind, self.now, input, argument);
    }

    /// Now and then an input changes its kind; about half stay Ethernet.
    fn new_kind(&mut self, n: usize) -> u16 {
        if self.random.percent(50) {
            let ethernet = self.neighbours.iter().filter(|one| one.ethernet).count();
            self.neighbours[n].ethernet = ethernet < 8;
        }
        u16::from(self.neighbours[n].ethernet)
    }
}

impl LogSource for Realistic {
    fn next_line(&mut self, log: &mut Vec<u8>) {
        if let Some((kind, input, argument)) = self.setup.pop_front() {
            self.now += self.random.below(3);
            return event_line(log, kind, self.now, input, argument);
        }
        loop {
            let (time, cause) = self.next_cause();
            self.now = self.now.max(time);
            if self.random.one_in(4_000) {
                let late = self.now - self.random.between(1, 100).min(self.now);
                return event_line(log, 0x0f, late, 0, 0);
            }
            if self.happen(cause, log) {
                return;
            }
        }
    }
}

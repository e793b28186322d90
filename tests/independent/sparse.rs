//! Logs with few events and long gaps between them, so that several due moments lie between
//! two events and the order in which they are served shows: equals whose waits end in turn,
//! a manual switch or a lock that lasts only between two events, an input that goes as
//! another comes.
//!
//! Each episode sets a few inputs going; then nothing is sent until the next aim: one of the
//! milliseconds in which something ends, the one before or after it, or long after all of
//! them. Like `nasty.rs` this keeps no selector.

use std::collections::VecDeque;

use crate::generate::{event_line, frame_line, sound_frame, LogSource, Numbers, LAST_TIME};
use crate::random::Random;
use crate::selector::{Code, Time, FRAME_LIFE, MINUTE};

const HOLD_OFFS: [u16; 5] = [300, 300, 500, 1_000, 1_800];
const GROUP: usize = 5;

/// The longest a step of an episode may lie ahead; the log ends its time with room for one.
const LONGEST_EPISODE: Time = 10 * MINUTE;

#[derive(Clone, Copy)]
struct Planned {
    time: Time,
    kind: u8,
    input: u8,
    argument: u16,
}

pub struct Sparse {
    random: Random,
    numbers: &'static Numbers,
    now: Time,
    /// The inputs of this log; the others stay fresh.
    group: [u8; GROUP],
    hold_offs: [Time; GROUP],
    ethernet: [bool; GROUP],
    plan: VecDeque<Planned>,
    /// Milliseconds in which something of the episode ends.
    ends: Vec<Time>,
    /// Whether all sixteen inputs meet now and then.
    crowded: bool,
}

impl Sparse {
    pub fn new(mut random: Random, numbers: &'static Numbers) -> Sparse {
        let mut sparse = Sparse {
            group: some_inputs(&mut random),
            crowded: random.percent(30),
            random,
            numbers,
            now: 0,
            hold_offs: [300; GROUP],
            ethernet: [false; GROUP],
            plan: VecDeque::new(),
            ends: Vec::new(),
        };
        if sparse.random.percent(40) {
            sparse.plan_first_lock_unseen();
        }
        sparse.plan_setup();
        sparse
    }

    /// The clock's first lock, of the only input there is, begins and ends between two
    /// events.
    fn plan_first_lock_unseen(&mut self) {
        self.set_up(0);
        self.up_for_a_while(0);
        let last = self.ends.iter().fold(0, |last, &end| last.max(end));
        let next = last - self.random.below(2) + self.random.below(3);
        self.step(next, 0x0f, 0, 0);
    }

    fn plan_setup(&mut self) {
        for member in 0..GROUP {
            self.set_up(member);
        }
    }

    /// Nearly all have priority 1, so that they are equals where their qualities are.
    fn set_up(&mut self, member: usize) {
        let n = self.group[member];
        self.ethernet[member] = self.random.percent(40);
        self.step(0, 0x10, n, u16::from(self.ethernet[member]));
        let priority = self.random.pick(&[1, 1, 1, 1, 1, 1, 2]);
        self.step(0, 0x04, n, priority);
        let wait = self.random.pick(&[1, 1, 1, 1, 0]);
        self.step(0, 0x07, n, wait);
        let hold_off = self.random.pick(&HOLD_OFFS);
        self.hold_offs[member] = Time::from(hold_off);
        self.step(0, 0x06, n, hold_off);
    }

    fn step(&mut self, after: Time, kind: u8, input: u8, argument: u16) {
        self.plan.push_back(Planned {
            time: self.now + after,
            kind,
            input,
            argument,
        });
    }

    /// Something ends so long after now.
    fn ends(&mut self, after: Time) {
        self.ends.push(self.now + after);
    }

    /// A fixed quality, mostly one of the best two; in option II PROV now and then.
    fn quality(&mut self) -> u16 {
        if self.random.percent(20) {
            return self.numbers.any_fixed(&mut self.random);
        }
        self.random.between(1, 2) as u16
    }

    fn code(&mut self) -> u16 {
        u16::from(self.numbers.good_code(&mut self.random))
    }

    fn member(&mut self) -> usize {
        self.random.below(GROUP as u64) as usize
    }

    /// How far apart what is to end in turn ends: often in one millisecond or the next.
    fn apart(&mut self) -> Time {
        match self.random.below(8) {
            0 | 1 => 0,
            2 | 3 => 1,
            4 => self.random.between(2, 299),
            5 => 300,
            _ => self.random.between(301, 2_000),
        }
    }

    fn plan_episode(&mut self) {
        self.ends.clear();
        match self.random.below(14 + u64::from(self.crowded)) {
            0..=3 => self.episode_waits_in_turn(),
            4 | 5 => self.episode_goes_as_others_come(),
            12 => self.episode_silent_as_another_comes(),
            13 => self.episode_floors(),
            14 => self.episode_all_sixteen(),
            6 | 7 => self.episode_up_between_two_events(),
            8 => self.episode_silent_in_turn(),
            9 => self.episode_fails_in_turn(),
            10 => self.episode_mode(),
            _ => self.episode_setting(),
        }
        self.plan_gap();
        self.plan.make_contiguous().sort_by_key(|step| step.time);
    }

    /// The event after the gap: aimed at something that ends, or after all that does.
    fn plan_gap(&mut self) {
        let last = self.ends.iter().fold(self.now, |last, &end| last.max(end));
        let aim = match self.random.below(10) {
            0..=4 if !self.ends.is_empty() => {
                let end = self.random.pick(&self.ends);
                (end + self.random.below(3)).saturating_sub(1)
            }
            5..=7 => last + self.random.between(1, 2_000),
            _ => last + self.random.between(1, 20_000),
        };
        let after = aim.saturating_sub(self.now);
        if self.random.percent(25) {
            self.plan_refused(after);
        }
        let n = self.group[self.member()];
        match self.random.below(12) {
            0..=4 => self.step(after, 0x0f, 0, 0),
            5 | 6 => self.step(after, 0x0b, n, 0),
            7 => self.step(after, 0x09, n, 0),
            8 => self.step(after, 0x0c, 0, 0),
            9 => self.step(after, 0x01, n, 1),
            10 => self.step(after, 0x01, n, 0),
            _ => self.step(after, 0x04, n, 1),
        }
    }

    /// A line that serves nothing (5, 6), or a command that is refused and serves all.
    fn plan_refused(&mut self, after: Time) {
        let idle = (0..16).find(|n| !self.group.contains(n)).unwrap_or(0);
        match self.random.below(4) {
            0 => self.step(after, 0x0f, 1, 0),
            1 => self.step(after, 0x04, idle, 17),
            2 => self.step(after, 0x0b, idle, 0),
            _ => self.step(after, 0x0a, idle, 0),
        }
    }

    /// Down, and from then on with a fixed quality; it recovers after `good`, and its wait
    /// of a minute ends a minute after that.
    fn waits(&mut self, member: usize, good: Time, quality: u16) {
        let n = self.group[member];
        self.step(0, 0x01, n, 1);
        self.step(0, 0x08, n, quality);
        self.step(0, 0x07, n, 1);
        self.step(good, 0x01, n, 0);
        self.ends(good + MINUTE);
    }

    /// Several equals, all of them down, recover one after another.
    fn episode_waits_in_turn(&mut self) {
        let quality = self.quality();
        let mut good = 2_000;
        let first = self.member();
        let count = self.random.between(2, GROUP as u64) as usize;
        for place in 0..count {
            // The higher numbers first, or it makes no difference.
            let member = (first + GROUP - place) % GROUP;
            let another = self.random.one_in(10);
            let quality = if another { self.quality() } else { quality };
            self.waits(member, good, quality);
            good += self.apart();
        }
        if self.random.percent(40) {
            // What may still be selected goes too.
            for member in 0..GROUP {
                self.step(0, 0x01, self.group[member], 1);
            }
        }
        if self.random.percent(20) {
            self.step(1, 0x0c, 0, 0);
        }
    }

    /// One that is up fails so that its hold-off ends about when the others' waits end.
    fn episode_goes_as_others_come(&mut self) {
        let leaving = self.member();
        let n = self.group[leaving];
        self.step(0, 0x08, n, 1);
        self.step(0, 0x01, n, 0);
        self.step(0, 0x09, n, 0);
        if self.random.percent(50) {
            self.step(1, 0x0b, n, 0);
        }
        let mut good = 2_000;
        for place in 1..=self.random.between(1, 3) as usize {
            let member = (leaving + place) % GROUP;
            self.waits(member, good, 1);
            good += self.apart();
        }
        let hold_off = self.hold_offs[leaving];
        let gone = (2_000 + MINUTE + self.apart() + self.random.below(2)) - self.random.below(2);
        self.step(gone - hold_off, 0x01, n, 1);
        self.ends(gone);
    }

    /// A better input is up for a while between two events, beside others of quality 2, of
    /// which one may have a manual switch.
    fn episode_up_between_two_events(&mut self) {
        let member = self.member();
        for other in (0..GROUP).filter(|other| *other != member) {
            self.step(0, 0x08, self.group[other], 2);
        }
        if self.random.percent(70) {
            let n = self.group[(member + 1) % GROUP];
            self.step(0, 0x01, n, 0);
            self.step(0, 0x09, n, 0);
            self.step(1_999, 0x0b, n, 0);
        }
        self.up_for_a_while(member);
    }

    /// An Ethernet input whose wait ends shortly before its last frame expires, or just not
    /// before.
    fn up_for_a_while(&mut self, member: usize) {
        let n = self.group[member];
        self.make_ethernet(member);
        self.waits(member, 2_000, 1);
        // Covered by the fixed quality until the frame is there: one run.
        let before_the_end = match self.random.below(4) {
            0 => self.random.between(FRAME_LIFE - 1, FRAME_LIFE + 1),
            _ => self.random.between(1, FRAME_LIFE - 1),
        };
        let frame = 2_000 + MINUTE - before_the_end;
        let code = self.code();
        self.step(frame, 0x02, n, code);
        self.step(frame, 0x08, n, 0);
        self.ends(frame + FRAME_LIFE);
        self.ends(frame + FRAME_LIFE + self.hold_offs[member]);
    }

    fn make_ethernet(&mut self, member: usize) {
        if !self.ethernet[member] {
            self.ethernet[member] = true;
            self.step(0, 0x10, self.group[member], 1);
        }
    }

    /// Ethernet inputs that are up fall silent one after another.
    fn episode_silent_in_turn(&mut self) {
        let code = self.code();
        let mut heard = 1;
        for member in 0..self.random.between(2, GROUP as u64) as usize {
            let n = self.group[member];
            self.make_ethernet(member);
            self.step(0, 0x08, n, 0);
            self.step(0, 0x01, n, 0);
            self.step(heard, 0x02, n, code);
            self.step(heard, 0x09, n, 0);
            self.ends(heard + FRAME_LIFE);
            self.ends(heard + FRAME_LIFE + self.hold_offs[member]);
            heard += self.apart();
        }
        if self.random.percent(50) {
            let n = self.group[self.member()];
            self.step(heard, 0x0b, n, 0);
        }
    }

    /// The selected one falls silent; another equal's wait ends about when it goes.
    fn episode_silent_as_another_comes(&mut self) {
        let silent = self.random.between(1, GROUP as u64 - 1) as usize;
        let n = self.group[silent];
        self.make_ethernet(silent);
        for member in 1..GROUP {
            let up = self.group[member];
            self.step(0, 0x08, up, 1);
            self.step(0, 0x01, up, 0);
            self.step(0, 0x09, up, 0);
        }
        self.step(1, 0x0a, n, 0);
        self.step(1, 0x0c, 0, 0);
        self.waits(0, 2_000, 1);
        let gone = 2_000 + MINUTE - self.random.below(900);
        let frame = gone - FRAME_LIFE - self.hold_offs[silent];
        self.step(frame, 0x02, n, u16::from(self.numbers.followed[0]));
        self.step(frame, 0x08, n, 0);
        self.ends(gone);
    }

    /// All are up with one quality; one has a lower one, and is below its floor or not.
    fn episode_floors(&mut self) {
        let low = self.member();
        let (low, high) = (self.group[low], self.group[(low + 1) % GROUP]);
        let quality = self.numbers.any_floor(&mut self.random).max(2);
        for member in 0..GROUP {
            let n = self.group[member];
            self.step(0, 0x08, n, quality);
            self.step(0, 0x01, n, 0);
            self.step(0, 0x09, n, 0);
            self.step(0, 0x11, n, self.numbers.last_floor);
        }
        let below = quality.max(3) - 1;
        self.step(1, 0x08, low, below);
        self.step(1, 0x11, low, below - 1);
        match self.random.below(5) {
            0 => {
                self.step(2, 0x0b, high, 0);
                self.step(3, 0x11, high, quality - 1);
            }
            1 => {
                self.step(2, 0x0b, high, 0);
                self.step(3, 0x11, low, below);
            }
            2 => self.step(2, 0x0b, low, 0),
            3 => {
                self.step(2, 0x0b, high, 0);
                self.step(3, 0x0b, low, 0);
                self.step(4, 0x0d, 0, 0);
                self.step(5, 0x0d, 0, 1);
            }
            _ => {
                self.step(2, 0x0a, low, 0);
                self.step(3, 0x11, low, below);
                self.step(4, 0x11, low, below - 1);
            }
        }
        if self.random.percent(80) {
            self.step(9, 0x0c, 0, 0);
            self.step(9, 0x11, low, self.numbers.last_floor);
            self.step(9, 0x11, high, self.numbers.last_floor);
        }
    }

    /// All sixteen have a wait, a frame and the hold-off after it to end, 48 at most, in
    /// milliseconds of their own or together.
    fn episode_all_sixteen(&mut self) {
        let alone = self.random.percent(60);
        self.step(0, 0x0d, 0, 0);
        for n in 0..16 {
            if alone {
                self.step(0, 0x06, n, 300);
            }
            self.step(0, 0x10, n, 1);
            self.step(0, 0x08, n, 0);
            self.step(0, 0x07, n, 1);
            self.step(0, 0x01, n, 1);
        }
        self.ethernet = [true; GROUP];
        let (mut good, mut heard) = (2_000, 2_000 + MINUTE - 1_000);
        if alone {
            self.hold_offs = [300; GROUP];
        }
        for n in 0..16 {
            self.step(good, 0x01, n, 0);
            self.step(heard, 0x02, n, u16::from(self.numbers.followed[0]));
            good += if alone { 1 } else { self.random.below(3) };
            heard += if alone { 1 } else { self.random.below(3) };
        }
        // Nobody is heard until then, so that mode off covers it.
        if self.random.percent(80) {
            self.step(heard, 0x0d, 0, 1);
        }
        self.ends(good + MINUTE);
        self.ends(heard + FRAME_LIFE);
        self.ends(heard + FRAME_LIFE + 300);
    }

    /// Inputs that are up, some of them equals, fail one after another.
    fn episode_fails_in_turn(&mut self) {
        let mut failed = 2;
        for member in 0..GROUP {
            let n = self.group[member];
            let quality = self.quality();
            self.step(0, 0x08, n, quality);
            self.step(0, 0x01, n, 0);
            self.step(1, 0x09, n, 0);
            if self.random.percent(80) {
                self.step(failed, 0x01, n, 1);
                self.ends(failed + self.hold_offs[member]);
            }
            failed += self.apart().min(400);
        }
        if self.random.percent(50) {
            let n = self.group[self.member()];
            self.step(1, 0x0b, n, 0);
        }
    }

    /// With mode off the priority alone decides, and silence covers nothing.
    fn episode_mode(&mut self) {
        let mode = u16::from(self.random.percent(70));
        self.step(0, 0x0d, 0, mode);
        for member in 0..GROUP {
            self.ends(self.hold_offs[member]);
        }
        self.ends(MINUTE);
    }

    /// A setting is changed while timers run.
    fn episode_setting(&mut self) {
        let member = self.member();
        let n = self.group[member];
        match self.random.below(7) {
            6 => {
                let floor = self.numbers.any_floor(&mut self.random);
                self.step(0, 0x11, n, floor);
            }
            0 => {
                let hold_off = self.random.pick(&HOLD_OFFS);
                self.hold_offs[member] = Time::from(hold_off);
                self.step(0, 0x06, n, hold_off);
            }
            1 => {
                let wait = self.random.pick(&[0, 1, 2]);
                self.step(0, 0x07, n, wait);
                self.ends(Time::from(wait) * MINUTE);
            }
            2 => {
                self.step(0, 0x05, n, 1);
                self.step(1, 0x05, n, 0);
            }
            3 => {
                let priority = self.random.pick(&[1, 1, 1, 2]);
                self.step(0, 0x04, n, priority);
            }
            4 => {
                self.step(0, 0x0a, n, 0);
                self.step(1, 0x0c, 0, 0);
            }
            _ => {
                let sending = self.random.below(2) as u16;
                self.step(0, 0x0e, n, sending);
            }
        }
    }
}

/// Five different inputs in rising order.
fn some_inputs(random: &mut Random) -> [u8; GROUP] {
    let mut group = [0; GROUP];
    let mut next = 0;
    for (place, n) in group.iter_mut().enumerate() {
        let left = (GROUP - place) as u64;
        *n = random.between(next, 16 - left) as u8;
        next = u64::from(*n) + 1;
    }
    group
}

impl LogSource for Sparse {
    fn next_line(&mut self, log: &mut Vec<u8>) {
        while self.plan.is_empty() {
            if self.now > LAST_TIME - LONGEST_EPISODE {
                self.step(0, 0x0f, 0, 0);
            } else {
                self.plan_episode();
            }
        }
        let Some(step) = self.plan.pop_front() else {
            return;
        };
        self.now = self.now.max(step.time);
        if step.kind == 0x02 {
            let frame = sound_frame([2, 0, 0, 0, 0, step.input], false, step.argument as Code);
            frame_line(log, self.now, step.input, 0, &frame);
        } else {
            event_line(log, step.kind, self.now, step.input, step.argument);
        }
    }
}

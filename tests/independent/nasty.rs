//! Logs that go for the edges: many events in one millisecond, timers exactly full and one
//! short, frames in their 4,999th to 5,001st millisecond, switches and ties, every number
//! of refusal a log can carry, torn lines, and at the end the last times there are.
//!
//! Small stories (a failure of just the hold-off, a wait shortened while it runs ...) are
//! planned ahead, several at a time, and random events are strewn in between. This module
//! keeps no selector: of the state it only guesses, from what it has sent itself, what it
//! needs to aim at.

use std::collections::VecDeque;

use crate::generate::{
    event_line, frame_line, random_octets, sound_frame, LogSource, Numbers, DO_NOT_USE, LAST_TIME,
};
use crate::random::Random;
use crate::selector::{Code, Time, FRAME_LIFE, MINUTE};

const WAITS: [u16; 12] = [0, 0, 0, 0, 0, 1, 1, 1, 1, 2, 2, 12];
const HOLD_OFFS: [u16; 8] = [300, 300, 301, 400, 500, 1_000, 1_799, 1_800];

/// A log shorter than this stays among short times, so that the slow rules can follow it.
pub const SHORTEST_WITH_LEAPS: u64 = 1_000;

/// Where a longer log leaps to, and after how many thousandths of its lines: just before
/// times at which something narrower than six bytes runs over.
const LEAPS: [(u64, Time); 6] = [
    (100, 1 << 16),
    (200, 1 << 24),
    (300, 1 << 31),
    (400, 1 << 32),
    (600, 1 << 40),
    (800, 1 << 47),
];

/// And this many lines at most are at the end of time.
pub const LINES_AT_END_OF_TIME: u64 = 300;

/// What was last sent to an input.
#[derive(Clone, Copy)]
struct Sent {
    ethernet: bool,
    good: bool,
    on: bool,
    hold_off: u16,
    wait: u16,
}

#[derive(Clone, Copy)]
struct Planned {
    time: Time,
    kind: u8,
    input: u8,
    argument: u16,
}

pub struct Nasty {
    random: Random,
    numbers: &'static Numbers,
    now: Time,
    line: u64,
    lines: u64,
    sent: [Sent; 16],
    /// The inputs most events are about, so that they meet.
    busy: [u8; 5],
    plan: VecDeque<Planned>,
    /// Times at which something may be due.
    aims: [Time; 24],
    next_aim: usize,
}

impl Nasty {
    pub fn new(random: Random, lines: u64, numbers: &'static Numbers) -> Nasty {
        let mut nasty = Nasty {
            random,
            numbers,
            now: 0,
            line: 0,
            lines,
            sent: [Sent {
                ethernet: false,
                good: false,
                on: false,
                hold_off: 300,
                wait: 5,
            }; 16],
            busy: [0; 5],
            plan: VecDeque::new(),
            aims: [0; 24],
            next_aim: 0,
        };
        for n in 0..5 {
            nasty.busy[n] = nasty.random.below(16) as u8;
        }
        match nasty.random.below(10) {
            0 | 1 => nasty.plan_lock_at_tick_only(),
            2 => nasty.plan_forced_below_floor(),
            _ => nasty.plan_setup(),
        }
        nasty
    }

    /// A first lock that no answer shows: the wait ends in the millisecond in which the
    /// only input is locked out, switched off or wanted no more.
    fn plan_lock_at_tick_only(&mut self) {
        let n = self.busy[0];
        self.step(0, 0x04, n, 1);
        self.step(0, 0x07, n, 1);
        self.step(1, 0x01, n, 0);
        self.tell(1, n, self.numbers.followed[0]);
        let (kind, argument) = self.random.pick(&[
            (0x05, 1),
            (0x04, 0),
            (0x08, self.numbers.last_fixed),
            (0x0a, 0),
        ]);
        self.step(1 + MINUTE, kind, n, argument);
        self.step(1 + MINUTE, 0x0f, 0, 0);
        self.step(1 + MINUTE, 0x05, n, 0);
        self.step(1 + MINUTE, 0x04, n, 1);
    }

    /// Forced onto an input below its floor before the clock was ever locked.
    fn plan_forced_below_floor(&mut self) {
        let n = self.busy[0];
        let floor = self.random.between(1, 3) as u16;
        self.step(0, 0x04, n, 1);
        self.step(0, 0x07, n, 0);
        self.step(0, 0x11, n, floor);
        self.step(0, 0x08, n, floor + 1);
        self.step(0, 0x01, n, 0);
        self.step(1, 0x0a, n, 0);
        self.step(2, 0x0f, 0, 0);
        self.step(3, 0x11, n, self.numbers.last_floor);
        self.step(4, 0x0c, 0, 0);
        self.plan_setup();
    }

    fn plan_setup(&mut self) {
        for n in self.busy {
            if self.random.percent(45) {
                self.step(0, 0x10, n, 1);
                self.sent[usize::from(n)].ethernet = true;
            }
            let priority = self.random.between(1, 3) as u16;
            self.step(0, 0x04, n, priority);
            let wait = self.random.pick(&WAITS);
            self.step(0, 0x07, n, wait);
            self.sent[usize::from(n)].wait = wait;
            self.step(0, 0x01, n, 0);
            let code = self.random.pick(self.numbers.codes);
            self.tell(0, n, code);
        }
    }

    // Stories. A step's time is counted from now.

    fn step(&mut self, after: Time, kind: u8, input: u8, argument: u16) {
        self.plan.push_back(Planned {
            time: self.now + after,
            kind,
            input,
            argument,
        });
    }

    /// A step in the millisecond before, in or after the one that matters.
    fn step_about(&mut self, after: Time, kind: u8, input: u8, argument: u16) {
        let about = (after + self.random.below(3)).saturating_sub(1);
        self.step(about, kind, input, argument);
    }

    /// Ticks before, at and after, or some of them.
    fn ticks_about(&mut self, after: Time) {
        for tick in after.saturating_sub(1)..=after + 1 {
            if self.random.percent(60) {
                self.step(tick, 0x0f, 0, 0);
            }
        }
    }

    /// The input hears a code: a frame, or three reports.
    fn tell(&mut self, after: Time, input: u8, code: Code) {
        if self.sent[usize::from(input)].ethernet {
            self.step(after, 0x02, input, u16::from(code));
        } else {
            let slow = self.random.below(2);
            for report in 0..3 {
                self.step(after + report * slow, 0x03, input, u16::from(code));
            }
        }
    }

    fn hold_off(&self, input: u8) -> Time {
        Time::from(self.sent[usize::from(input)].hold_off)
    }

    fn wait(&self, input: u8) -> Time {
        Time::from(self.sent[usize::from(input)].wait) * MINUTE
    }

    fn plan_story(&mut self) {
        let n = if self.random.percent(25) {
            self.quiet_input()
        } else {
            self.busy_input()
        };
        let other = self.busy_input();
        let code = self.random.pick(self.numbers.codes);
        match self.random.below(37) {
            0 | 1 => self.story_failure_of_just_the_hold_off(n, code),
            2 => self.story_long_failure(n, code),
            3 | 4 => self.story_recovery(n, code),
            5 | 6 => self.story_frame_expires(n, code),
            7 => self.story_frame_renewed(n, code),
            8 | 9 => self.story_hold_off_changed(n, code),
            10 | 11 => self.story_wait_changed(n, code),
            12 => self.story_clear_wait(n, code),
            13 => self.story_silence_covered(n, code),
            14 => self.story_quality_mode(n, code),
            15 | 16 => self.story_full_equals(n, other, code),
            17..=19 => self.story_manual(n, other),
            20 => self.story_forced(n, other),
            21 => self.story_kind_set(n, code),
            22 => self.story_many_failures(n, code),
            23 => self.story_end_of_wait(n, code),
            24 => self.story_down_and_equal(n, other, code),
            25 | 26 => self.story_three_equals(),
            27 => self.story_mixed_codes(n),
            28 | 29 => self.story_wait_and_frame_end_together(),
            30 => self.story_wait_ends_unseen(),
            31 | 32 => self.story_renewed_while_waiting(),
            34..=36 => self.story_floor(n, other),
            _ => self.story_equals_after_nothing(),
        }
        self.plan.make_contiguous().sort_by_key(|step| step.time);
    }

    /// Has the input pass a quality, mostly; gives the time after which it does.
    fn bring_up(&mut self, n: u8, code: Code) -> Time {
        if self.random.percent(40) {
            return 0;
        }
        self.step(0, 0x01, n, 0);
        self.tell(0, n, code);
        self.step(2, 0x09, n, 0);
        self.random.between(2, 3)
    }

    fn story_failure_of_just_the_hold_off(&mut self, n: u8, code: Code) {
        let failed = self.bring_up(n, code);
        let hold_off = self.hold_off(n);
        self.step(failed, 0x01, n, 1);
        self.step_about(failed + hold_off, 0x01, n, 0);
        self.tell(failed + hold_off + 1, n, code);
    }

    fn story_long_failure(&mut self, n: u8, code: Code) {
        let failed = self.bring_up(n, code);
        self.step(failed, 0x01, n, 1);
        self.ticks_about(failed + self.hold_off(n));
    }

    fn story_recovery(&mut self, n: u8, code: Code) {
        self.step(0, 0x01, n, 0);
        self.tell(0, n, code);
        if self.wait(n) <= 2 * MINUTE || self.random.percent(10) {
            self.keep_heard(n, code, self.wait(n));
            self.ticks_about(self.wait(n));
        }
    }

    /// Frames often enough for a wait to run to its end, or just not.
    fn keep_heard(&mut self, n: u8, code: Code, until: Time) {
        if self.sent[usize::from(n)].ethernet {
            let gap = match self.random.below(5) {
                0 => FRAME_LIFE,
                1 => FRAME_LIFE - 1,
                _ => self.random.between(4_000, 4_999),
            };
            for frame in 1..=until / gap {
                self.step(frame * gap, 0x02, n, u16::from(code));
            }
        }
    }

    fn story_frame_expires(&mut self, n: u8, code: Code) {
        self.make_ethernet(n);
        self.step(0, 0x02, n, u16::from(code));
        self.ticks_about(FRAME_LIFE);
        self.ticks_about(FRAME_LIFE + self.hold_off(n));
    }

    fn make_ethernet(&mut self, n: u8) {
        if !self.sent[usize::from(n)].ethernet {
            self.step(0, 0x10, n, 1);
        }
        self.step(0, 0x01, n, 0);
    }

    fn story_frame_renewed(&mut self, n: u8, code: Code) {
        self.make_ethernet(n);
        self.step(0, 0x02, n, u16::from(code));
        self.step_about(FRAME_LIFE, 0x02, n, u16::from(code));
        if self.random.percent(50) {
            let hold_off = self.hold_off(n);
            self.step_about(2 * FRAME_LIFE + hold_off, 0x02, n, u16::from(code));
        }
    }

    fn story_hold_off_changed(&mut self, n: u8, code: Code) {
        let failed = self.bring_up(n, code);
        let (before, after) = (self.random.pick(&HOLD_OFFS), self.random.pick(&HOLD_OFFS));
        let (sooner, later) = (Time::from(before.min(after)), Time::from(before.max(after)));
        self.step(failed, 0x06, n, before);
        self.step(failed, 0x01, n, 1);
        self.step_about(failed + sooner, 0x06, n, after);
        self.ticks_about(failed + later);
        self.step_about(failed + later, 0x01, n, 0);
        self.tell(failed + later + 1, n, code);
    }

    /// Fails for longer than the hold-off and recovers; gives when.
    fn down_and_back(&mut self, n: u8, code: Code) -> Time {
        let back = self.hold_off(n) + self.random.below(3);
        self.step(0, 0x01, n, 1);
        self.step(back, 0x01, n, 0);
        self.tell(back, n, code);
        back
    }

    fn story_wait_changed(&mut self, n: u8, code: Code) {
        let before = self.random.between(1, 3);
        let after = self.random.between(0, 3);
        self.step(0, 0x07, n, before as u16);
        let back = self.down_and_back(n, code);
        self.step_about(back + before.min(after) * MINUTE, 0x07, n, after as u16);
        if !self.sent[usize::from(n)].ethernet {
            self.ticks_about(back + before.max(after) * MINUTE);
        }
    }

    fn story_clear_wait(&mut self, n: u8, code: Code) {
        self.step(0, 0x07, n, 1);
        let back = self.down_and_back(n, code);
        let cleared = back + self.random.below(4);
        match self.random.below(4) {
            0 => self.step(back, 0x09, n, 0),
            1 => {
                self.step(cleared, 0x01, n, 1);
                self.step(cleared, 0x09, n, 0);
                self.step(cleared, 0x01, n, 0);
            }
            2 => {
                self.step(cleared, 0x09, n, 0);
                self.step(cleared, 0x01, n, 1);
                self.step(cleared, 0x01, n, 0);
                self.tell(cleared, n, code);
            }
            _ => self.step(cleared, 0x09, n, 0),
        }
    }

    fn story_silence_covered(&mut self, n: u8, code: Code) {
        self.make_ethernet(n);
        self.step(0, 0x02, n, u16::from(code));
        let fixed = self.numbers.any_fixed(&mut self.random);
        let covered = self.random.pick(&[1, 3_000, 4_998, 4_999, 5_000, 5_001]);
        self.step(covered, 0x08, n, fixed);
        let uncovered = covered + self.random.pick(&[0, 1, 300, 2_000]);
        self.step_about(uncovered.max(FRAME_LIFE), 0x08, n, 0);
        self.ticks_about(uncovered.max(FRAME_LIFE) + self.hold_off(n));
    }

    fn story_quality_mode(&mut self, n: u8, code: Code) {
        self.step(0, 0x0d, 0, 0);
        if self.random.percent(50) {
            self.step(0, 0x01, n, 1);
        }
        let on = self.random.pick(&[0, 1, 299, 300, 301, 1_000, 5_000]);
        self.step(on, 0x0d, 0, 1);
        if self.random.percent(50) {
            self.tell(on, n, code);
        }
        self.ticks_about(on + self.hold_off(n));
    }

    fn story_full_equals(&mut self, n: u8, other: u8, code: Code) {
        let priority = self.random.between(1, 2) as u16;
        for input in [n, other] {
            self.step(0, 0x04, input, priority);
            self.step(0, 0x01, input, 0);
            self.tell(0, input, code);
            self.step(1, 0x09, input, 0);
        }
        if self.random.percent(70) {
            self.step(2, 0x0a, other, 0);
            self.step(3, 0x0c, 0, 0);
        }
        if self.random.percent(50) {
            self.step(4, 0x05, other, 1);
            self.step(5, 0x05, other, 0);
        }
    }

    fn story_manual(&mut self, n: u8, other: u8) {
        let code = self.numbers.good_code(&mut self.random);
        let up = self.bring_up(n, code);
        if self.random.percent(50) {
            self.step(up, 0x0c, 0, 0);
        }
        self.step(up, 0x0b, n, 0);
        let then = up + self.random.between(0, 20);
        match self.random.below(6) {
            0 => self.tell(then, other, self.numbers.followed[0]),
            1 => self.tell(then, n, DO_NOT_USE),
            2 => {
                self.step(then, 0x01, n, 1);
                self.step_about(then + self.hold_off(n), 0x01, n, 0);
            }
            3 => self.step(then, 0x0b, other, 0),
            4 => self.step(then, 0x09, other, 0),
            _ => {
                self.step(then, 0x05, n, 1);
                self.step(then + 1, 0x05, n, 0);
            }
        }
        if self.random.percent(40) {
            self.step(then + 5, 0x0c, 0, 0);
        }
    }

    fn story_forced(&mut self, n: u8, other: u8) {
        self.step(0, 0x0a, n, 0);
        match self.random.below(4) {
            0 => self.step(1, 0x0a, other, 0),
            1 => {
                self.step(1, 0x04, n, 0);
                self.step(1, 0x04, n, 1);
            }
            2 => self.step(1, 0x0b, other, 0),
            _ => self.step(1, 0x01, n, 1),
        }
        let later = self.random.between(1, 500);
        self.step(later, 0x0c, 0, 0);
    }

    /// A floor set below what the input passes, with a switch on it, beside another input.
    fn story_floor(&mut self, n: u8, other: u8) {
        let quality = self.numbers.any_floor(&mut self.random);
        let code = self.numbers.followed[usize::from(quality) - 1];
        let up = self.bring_up(n, code);
        match self.random.below(4) {
            0 => self.step(up, 0x0a, n, 0),
            1 | 2 => self.step(up, 0x0b, n, 0),
            _ => {}
        }
        let floor = (quality + self.random.below(3) as u16).saturating_sub(1);
        self.step(up + 1, 0x11, n, floor);
        match self.random.below(6) {
            0 => self.step(up + 1, 0x0b, n, 0),
            1 => self.step(up + 1, 0x0b, other, 0),
            2 => self.step(up + 2, 0x0d, 0, 0),
            3 => self.step(
                up + 2,
                0x10,
                n,
                u16::from(self.sent[usize::from(n)].ethernet),
            ),
            4 => self.tell(up + 2, n, self.numbers.followed[0]),
            _ => {
                let code = self.random.pick(self.numbers.followed);
                self.tell(up + 2, other, code);
            }
        }
        if self.random.percent(60) {
            let later = self.random.pick(&[3, 4, 300, 301]);
            let floor = self.numbers.last_floor - u16::from(self.random.one_in(4));
            self.step(up + later, 0x11, n, floor);
        }
        if self.random.percent(40) {
            self.step(up + 5, 0x0c, 0, 0);
        }
        self.step(up + 6, 0x0d, 0, 1);
    }

    fn story_kind_set(&mut self, n: u8, code: Code) {
        let ethernet = self.sent[usize::from(n)].ethernet;
        let kind = if self.random.percent(70) {
            ethernet
        } else {
            !ethernet
        };
        self.step(0, 0x10, n, u16::from(kind));
        self.sent[usize::from(n)].ethernet = kind;
        let heard = (self.hold_off(n) + self.random.below(3)).saturating_sub(2);
        self.tell(heard, n, code);
    }

    fn story_many_failures(&mut self, n: u8, code: Code) {
        for failure in 0..self.random.between(1, 6) {
            let gap = self.random.below(3);
            self.step(failure * gap, 0x01, n, 1);
            self.step(failure * gap, 0x01, n, 0);
            if self.random.percent(60) {
                self.tell(failure * gap, n, code);
            }
        }
    }

    /// Something happens to the input just as its wait ends.
    fn story_end_of_wait(&mut self, n: u8, code: Code) {
        self.step(0, 0x07, n, 1);
        let back = self.down_and_back(n, code);
        self.keep_heard(n, code, back + MINUTE);
        let end = back + MINUTE;
        match self.random.below(5) {
            0 => self.step_about(end, 0x01, n, 1),
            1 => self.step_about(end, 0x07, n, 2),
            2 => self.step_about(end, 0x10, n, u16::from(self.sent[usize::from(n)].ethernet)),
            3 => self.step_about(end, 0x09, n, 0),
            _ => self.step_about(end, 0x0b, n, 0),
        }
    }

    /// The frame's 5,000th millisecond is the one in which the wait ends, or nearly.
    fn story_wait_and_frame_end_together(&mut self) {
        let n = self.quiet_input();
        let code = self.numbers.good_code(&mut self.random);
        self.make_ethernet(n);
        self.step(0, 0x07, n, 1);
        self.step(0, 0x01, n, 1);
        let back = self.hold_off(n);
        self.step(back, 0x01, n, 0);
        let gap = 4_583; // twelve frames, and the last of them lives to the end
        for frame in 0..12 {
            self.step(back + frame * gap, 0x02, n, u16::from(code));
        }
        self.step_about(back + MINUTE - FRAME_LIFE, 0x02, n, u16::from(code));
        self.ticks_about(back + MINUTE);
        self.step_about(back + MINUTE, 0x02, n, u16::from(code));
    }

    /// While a wait runs, one frame is renewed in its 4,999th, 5,000th or 5,001st
    /// millisecond: the wait goes on, or it starts anew.
    fn story_renewed_while_waiting(&mut self) {
        let n = self.quiet_input();
        self.make_ethernet(n);
        self.step(0, 0x07, n, 1);
        self.step(0, 0x01, n, 1);
        let back = self.hold_off(n);
        self.step(back, 0x01, n, 0);
        let late = self.random.below(12);
        let mut frame = back;
        for place in 0..13 {
            self.step(frame, 0x02, n, u16::from(self.numbers.followed[0]));
            frame += if place == late {
                self.random.between(4_999, 5_001)
            } else {
                4_800
            };
        }
        self.ticks_about(back + MINUTE);
    }

    /// A wait ends and then the frame expires, and the next event comes only after that.
    fn story_wait_ends_unseen(&mut self) {
        let n = self.quiet_input();
        self.make_ethernet(n);
        self.step(0, 0x07, n, 1);
        let back = self.hold_off(n);
        self.step(0, 0x01, n, 1);
        self.step(back, 0x01, n, 0);
        let gap = self.random.between(4_300, 4_999);
        let last = (MINUTE - 1) / gap * gap;
        for frame in 0..=last / gap {
            self.step(
                back + frame * gap,
                0x02,
                n,
                u16::from(self.numbers.followed[0]),
            );
        }
        let expiry = back + last + FRAME_LIFE;
        let next = self.random.pick(&[0, 1, back - 1, back, back + 1]);
        self.step(expiry + next, 0x0f, 0, 0);
        self.step(expiry + next, 0x02, n, u16::from(self.numbers.followed[0]));
    }

    /// An equal comes up while the selected one goes down, in one millisecond or nearly.
    fn story_down_and_equal(&mut self, n: u8, other: u8, code: Code) {
        for input in [n, other] {
            self.step(0, 0x04, input, 1);
            self.step(0, 0x01, input, 0);
            self.tell(0, input, code);
        }
        self.step(0, 0x09, n, 0);
        self.step(1, 0x01, n, 1);
        self.step_about(1 + self.hold_off(n), 0x09, other, 0);
        self.step_about(1 + self.hold_off(n), 0x01, n, 0);
    }

    /// Code reports that nearly settle: all invalid but not the same, or broken off.
    fn story_mixed_codes(&mut self, n: u8) {
        let ethernet = self.sent[usize::from(n)].ethernet;
        let [best, next] = [self.numbers.followed[0], self.numbers.followed[1]];
        let up = if ethernet { 0 } else { self.bring_up(n, best) };
        let codes = if self.random.percent(60) {
            self.numbers.invalid
        } else {
            [best, best, next, DO_NOT_USE]
        };
        for _ in 0..self.random.between(3, 8) {
            let code = self.random.pick(&codes);
            self.step(up, 0x03, n, u16::from(code));
        }
    }

    /// The selected one of three equals goes down just as a waiting one with the lowest
    /// number is brought up: which of the two others is selected tells the tick's choice.
    fn story_three_equals(&mut self) {
        let mut three = [0, 1, 2].map(|part| part * 5 + self.random.below(5) as u8);
        three[1..].rotate_left(self.random.below(2) as usize);
        let [waiting, left, selected] = three;
        for input in [selected, left, waiting] {
            self.step(0, 0x05, input, 0);
            self.step(0, 0x04, input, 1);
            self.step(0, 0x07, input, if input == waiting { 1 } else { 0 });
            self.step(0, 0x08, input, 1);
            self.step(0, 0x01, input, u16::from(input == waiting));
        }
        let hold_off = self.hold_off(waiting).max(self.hold_off(selected));
        let failed = hold_off + self.random.below(3);
        self.step(failed, 0x01, waiting, 0);
        self.step(failed, 0x0a, selected, 0);
        self.step(failed, 0x0c, 0, 0);
        self.step(failed, 0x01, selected, 1);
        let end = failed + self.hold_off(selected);
        match self.random.below(3) {
            0 => self.step(end, 0x09, waiting, 0),
            1 => self.step(end, 0x07, waiting, 0),
            _ => self.step_about(end, 0x09, waiting, 0),
        }
        for input in three {
            self.step(end + 1, 0x08, input, 0);
        }
    }

    /// Two equals become eligible at once, after a choice that selected nothing; the one
    /// selected last has the higher number.
    fn story_equals_after_nothing(&mut self) {
        let lower = self.random.below(15) as u8;
        let higher = self.random.between(u64::from(lower) + 1, 15) as u8;
        let others = (0..16).filter(|input| *input != lower && *input != higher);
        for input in others
            .filter(|input| self.sent[usize::from(*input)].on)
            .collect::<Vec<u8>>()
        {
            self.step(0, 0x04, input, 0);
        }
        for input in [lower, higher] {
            self.step(0, 0x05, input, 0);
            self.step(0, 0x04, input, 2);
            self.step(0, 0x08, input, self.numbers.last_fixed);
            self.step(0, 0x01, input, 0);
            self.step(0, 0x09, input, 0);
        }
        self.step(1, 0x0d, 0, 0);
        self.step(1, 0x0a, higher, 0);
        self.step(1, 0x0c, 0, 0);
        self.step(2, 0x0d, 0, 1);
        self.step(2, 0x0d, 0, 0);
        self.step(3, 0x0d, 0, 1);
        for input in self.busy {
            self.step(4, 0x08, input, 0);
            self.step(4, 0x04, input, u16::from(input % 2) + 1);
        }
    }

    // What is sent.

    fn busy_input(&mut self) -> u8 {
        self.random.pick(&self.busy)
    }

    /// Any input; few random events disturb a story about it.
    fn quiet_input(&mut self) -> u8 {
        let n = self.random.below(16) as u8;
        let priority = self.random.between(1, 2) as u16;
        self.step(0, 0x04, n, priority);
        n
    }

    fn aim(&mut self, time: Time) {
        self.aims[self.next_aim] = time;
        self.next_aim = (self.next_aim + 1) % self.aims.len();
    }

    /// Sends an event as it should be; for a frame, `argument` is its code.
    fn send(&mut self, kind: u8, input: u8, argument: u16, log: &mut Vec<u8>) {
        if kind == 0x02 {
            self.send_frame(input, argument as Code, log);
        } else {
            event_line(log, kind, self.now, input, argument);
        }
        self.remember(kind, input, argument);
    }

    fn remember(&mut self, kind: u8, input: u8, argument: u16) {
        let sent = &mut self.sent[usize::from(input)];
        match kind {
            0x01 => sent.good = argument == 0,
            0x04 => sent.on = argument != 0,
            0x06 => sent.hold_off = argument,
            0x07 => sent.wait = argument,
            0x10 => sent.ethernet = argument == 1,
            _ => {}
        }
        match kind {
            0x01 | 0x08 | 0x0d | 0x10 => {
                self.aim(self.now + self.hold_off(input));
                self.aim(self.now + self.wait(input));
            }
            0x02 => {
                self.aim(self.now + FRAME_LIFE);
                self.aim(self.now + FRAME_LIFE + self.hold_off(input));
            }
            0x03 => self.aim(self.now + self.wait(input)),
            _ => {}
        }
    }

    fn send_frame(&mut self, input: u8, code: Code, log: &mut Vec<u8>) {
        let mut frame = [0; 1_514];
        let mut source = [0; 6];
        random_octets(&mut self.random, &mut source);
        frame[..60].copy_from_slice(&sound_frame(source, self.random.percent(50), code));
        let length = match self.random.below(200) {
            0 => 61,
            1 => 1_514,
            2 => 1_513,
            3 => self.random.between(62, 1_512),
            _ => 60,
        };
        if self.random.percent(10) {
            // Reserved and unused bits, and all from octet 29.
            frame[20] |= self.random.below(8) as u8;
            random_octets(&mut self.random, &mut frame[21..24]);
            frame[27] |= (self.random.below(16) as u8) << 4;
            random_octets(&mut self.random, &mut frame[28..length as usize]);
        }
        frame_line(log, self.now, input, 0, &frame[..length as usize]);
    }

    /// A frame with something wrong in it, often more than one thing.
    fn send_damaged_frame(&mut self, input: u8, log: &mut Vec<u8>) {
        let code = self.random.pick(self.numbers.codes);
        let mut frame = [0; 1_514];
        frame[..60].copy_from_slice(&sound_frame([2, 0, 0, 0, 0, input], false, code));
        let places = [0, 5, 12, 14, 15, 19, 20, 20, 20, 24, 26, 27];
        for _ in 0..self.random.between(1, 2) {
            let place = match self.random.below(4) {
                0 => self.random.below(28) as usize,
                _ => self.random.pick(&places),
            };
            frame[place] ^= 1 << self.random.below(8);
        }
        let length = match self.random.below(12) {
            0 => 59,
            1 => self.random.below(60),
            2 => 0,
            3 => 1_514,
            4 => 27,
            _ => 60,
        };
        frame_line(log, self.now, input, 0, &frame[..length as usize]);
    }

    /// Any event in order, mostly about a busy input.
    fn send_any(&mut self, log: &mut Vec<u8>) {
        let n = if self.random.percent(92) {
            self.busy_input()
        } else {
            self.random.below(16) as u8
        };
        let sent = self.sent[usize::from(n)];
        let (kind, input, argument) = match self.random.below(100) {
            0..=9 => (0x0f, 0, 0),
            10..=25 => (0x01, n, u16::from(sent.good ^ self.random.percent(70)) ^ 1),
            26..=49 if sent.ethernet => (0x02, n, u16::from(self.random.pick(self.numbers.codes))),
            26..=49 => (0x03, n, u16::from(self.random.pick(self.numbers.codes))),
            50..=56 => (0x04, n, self.random.pick(&[0, 1, 1, 1, 2, 2, 3, 16])),
            57..=61 => (0x05, n, u16::from(self.random.percent(25))),
            62..=66 => (0x06, n, self.random.pick(&HOLD_OFFS)),
            67..=71 => (0x07, n, self.random.pick(&WAITS)),
            72 | 73 => (0x08, n, 0),
            74 | 75 => (0x08, n, self.numbers.any_fixed(&mut self.random)),
            76..=80 => (0x09, n, 0),
            81 => (0x0a, n, 0),
            82..=87 => (0x0b, n, 0),
            88..=91 => (0x0c, 0, 0),
            92..=95 => (0x0d, 0, u16::from(self.random.percent(75))),
            96 => (0x0e, n, self.random.below(2) as u16),
            97 if self.random.percent(50) => (0x11, n, self.numbers.last_floor),
            97 => (0x11, n, self.numbers.any_floor(&mut self.random)),
            _ => (0x10, n, u16::from(sent.ethernet ^ self.random.percent(30))),
        };
        self.send(kind, input, argument, log);
    }

    /// A line to be refused, numbers 1 to 8, or to stand just on a border.
    fn send_refused(&mut self, log: &mut Vec<u8>) {
        let n = self.busy_input();
        match self.random.below(12) {
            0..=2 => self.send_torn(log),
            3 => {
                let unknown = self.numbers.unknown;
                let kind = self.random.pick(&[0x00, unknown, 0x13, 0x21, 0x80, 0xff]);
                let input = self.random.below(20) as u8;
                event_line(log, kind, self.now, input, self.random.below(3) as u16);
            }
            4 => {
                let back = self.random.pick(&[1, 1, 1, 2, 300, 5_000, 60_000]);
                let kind = self.random.between(0, 0x11) as u8;
                let earlier = self.now - back.min(self.now);
                event_line(log, kind, earlier, n, self.random.below(2) as u16);
            }
            5 => {
                let kind = self
                    .random
                    .pick(&[0x0c, 0x0d, 0x0f, 0x01, 0x03, 0x0a, 0x10, 0x11]);
                let input = self.random.pick(&[16, 1, 15, 17, 128, 255]);
                if kind >= 0x0c || input > 15 {
                    event_line(log, kind, self.now, input, self.random.below(3) as u16);
                } else {
                    event_line(log, 0x0f, self.now, input, 0);
                }
            }
            6 | 7 => self.send_border(n, log),
            8 => {
                let other_kind = if self.sent[usize::from(n)].ethernet {
                    0x03
                } else {
                    0x02
                };
                match other_kind {
                    0x02 if self.random.percent(50) => event_line(log, 0x02, self.now, n, 0),
                    0x02 => self.send_frame(n, self.numbers.followed[0], log),
                    _ => event_line(log, 0x03, self.now, n, self.random.below(18) as u16),
                }
            }
            _ => {
                let n = self.some_ethernet(n);
                self.send_damaged_frame(n, log);
            }
        }
    }

    fn some_ethernet(&mut self, otherwise: u8) -> u8 {
        for _ in 0..16 {
            let n = self.busy_input();
            if self.sent[usize::from(n)].ethernet {
                return n;
            }
        }
        otherwise
    }

    /// The borders of every argument's range, and just beyond them.
    fn send_border(&mut self, n: u8, log: &mut Vec<u8>) {
        let (fixed, floor) = (self.numbers.last_fixed, self.numbers.last_floor);
        let borders: [(u8, &[u16]); 17] = [
            (0x01, &[2, 256, 65_535]),
            (0x02, &[1, 256]),
            (0x03, &[0, 15, 16, 256, 258]),
            (0x04, &[0, 16, 17, 257]),
            (0x05, &[0, 2, 256]),
            (0x06, &[299, 300, 1_800, 1_801, 0, 44]),
            (0x07, &[0, 12, 13, 256]),
            (0x08, &[0, fixed, fixed + 1, fixed + 2, 257]),
            (0x09, &[1, 256]),
            (0x0a, &[1, 256]),
            (0x0b, &[1, 256]),
            (0x0c, &[1, 256]),
            (0x0d, &[2, 256, 257]),
            (0x0e, &[0, 1, 2, 256]),
            (0x0f, &[1, 256]),
            (0x10, &[self.numbers.beyond_kinds, 256, 257]),
            (0x11, &[0, 1, floor, floor + 1, floor + 2, 257, 260]),
        ];
        let (kind, arguments) = self.random.pick(&borders);
        let argument = self.random.pick(arguments);
        let input = if matches!(kind, 0x0c | 0x0d | 0x0f) {
            0
        } else {
            n
        };
        event_line(log, kind, self.now, input, argument);
        // Whatever of these is in range is remembered as if sent on purpose.
        match (kind, argument) {
            (0x06, 300 | 1_800) | (0x07, 0 | 12) => self.remember(kind, n, argument),
            _ => {}
        }
    }

    /// A line that was in order before something tore it.
    fn send_torn(&mut self, log: &mut Vec<u8>) {
        let start = log.len();
        let n = self.busy_input();
        if self.random.percent(30) {
            self.send_frame(n, self.numbers.followed[0], log);
        } else {
            let kind = self
                .random
                .pick(&[0x01, 0x03, 0x04, 0x0a, 0x0f, 0x02, 0x11, 0x1a]);
            event_line(log, kind, self.now, n, self.random.below(2) as u16);
        }
        log.pop();
        let place = start + self.random.below((log.len() - start) as u64) as usize;
        match self.random.below(16) {
            0 => log.push(b'\r'),
            1 => log[place] = self.random.pick(b"ABCDEF"),
            2 => drop(log.pop()),
            3 => log.truncate(log.len() - 2),
            4 => log.push(b'0'),
            5 => log.extend_from_slice(b"00"),
            6 => log[place] = 0,
            7 => log[place] = b' ',
            8 => log.insert(start, b' '),
            9 => log.push(b' '),
            10 => log.truncate(start),
            11 => log.truncate(place),
            12 => log[place] = self.random.pick(b"g/:`G@-+x\x80\xff\t"),
            13 => drop(log.remove(place)),
            14 => self.send_long(start, log),
            _ => log[place] = self.random.next() as u8 | 0x80,
        }
        log.push(b'\n');
    }

    /// A frame line of about 3,048 digits, or much more now and then. Whoever cuts a line
    /// that is too long may find a good one in the rest of it.
    fn send_long(&mut self, start: usize, log: &mut Vec<u8>) {
        log.truncate(start);
        self.send_frame(self.busy[0], self.numbers.followed[0], log);
        log.pop();
        let length = match self.random.below(20) {
            0 => 65_536,
            1 => 8_192,
            2 => 4_096,
            _ => self.random.between(3_046, 3_052) as usize,
        };
        log.resize(start + length, b'0');
        if length > 3_052 || self.random.percent(30) {
            let place = log.len() + 2;
            event_line(log, 0x0f, self.now, 0, 0);
            log.pop();
            // The rest is a line of L11's form.
            log.splice(place..place, *self.numbers.byte);
        }
    }

    // The course of time.

    fn move_time(&mut self) {
        let latest = self
            .plan
            .front()
            .map_or(LAST_TIME, |step| step.time.max(self.now));
        let step = match self.random.below(100) {
            0..=49 => 0,
            50..=59 => 1,
            60..=84 => self.step_to_an_aim(),
            85..=93 => self.random.between(1, 400),
            94..=97 => self.random.between(1, 6_000),
            98 => self.random.between(1, 70_000),
            _ => 0,
        };
        self.now = (self.now + step).min(latest).min(LAST_TIME);
    }

    fn step_to_an_aim(&mut self) -> Time {
        let aim = (self.random.pick(&self.aims) + self.random.below(3)).saturating_sub(1);
        let ahead = aim.saturating_sub(self.now);
        // Far aims seldom, or nothing near would be met.
        if ahead > 10_000 && !self.random.one_in(6) {
            0
        } else {
            ahead
        }
    }

    fn leap(&mut self) {
        if self.lines < SHORTEST_WITH_LEAPS {
            return;
        }
        for (thousandths, time) in LEAPS {
            if self.line == self.lines / 1_000 * thousandths {
                self.leap_before(time);
            }
        }
        if self.line == self.lines - LINES_AT_END_OF_TIME.min(self.lines / 33) {
            self.leap_before(LAST_TIME);
        }
    }

    fn leap_before(&mut self, time: Time) {
        self.plan.clear();
        let before = self.random.pick(&[0, 300, 5_000, 70_000]);
        self.now = self.now.max(time.saturating_sub(before));
    }

    fn send_planned(&mut self, log: &mut Vec<u8>) -> bool {
        let Some(step) = self.plan.pop_front() else {
            return false;
        };
        self.now = self.now.max(step.time).min(LAST_TIME);
        self.send(step.kind, step.input, step.argument, log);
        true
    }
}

impl LogSource for Nasty {
    fn next_line(&mut self, log: &mut Vec<u8>) {
        self.line += 1;
        self.leap();
        if self.random.one_in(150) {
            let place = self.random.below(5) as usize;
            self.busy[place] = self.random.below(16) as u8;
        }
        if self.plan.len() < 12 && self.random.percent(12) {
            self.plan_story();
        }
        if self.random.percent(6) {
            self.send_refused(log);
        } else if !(self.random.percent(60) && self.send_planned(log)) {
            self.move_time();
            self.send_any(log);
        }
    }
}

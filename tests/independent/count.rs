//! The mode `count`: replays a log and says how often it reached what. A test run that
//! reaches nothing shows here.

use std::io::{self, Read, Write};

use crate::generate::LAST_TIME;
use crate::line::{self, Line};
use crate::log::LogReader;
use crate::replay::Replay;
use crate::selector::{
    ClockState, Event, Input, InputNumber, Kind, Profile, Quality, Selector, Start, Switch, Time,
    FRAME_LIFE, NEVER, PROV, ST3E, ST4, TNC,
};

macro_rules! items {
    ($($item:ident $name:literal)*) => {
        #[derive(Clone, Copy)]
        enum Item { $($item),* }
        const NAMES: &[&str] = &[$($name),*];
    };
}

items! {
    Lines "lines"
    Accepted "accepted"
    Frames "accepted-frames"
    FreeRun "clock-free-run"
    Holdover "clock-holdover"
    Locked "clock-locked"
    NoneToForced "switch-none-to-forced"
    NoneToManual "switch-none-to-manual"
    ForcedToNone "switch-forced-to-none"
    ForcedToForced "switch-forced-to-forced"
    ForcedToManual "switch-forced-to-manual"
    ManualToNone "switch-manual-to-none"
    ManualToForced "switch-manual-to-forced"
    ManualToManual "switch-manual-to-manual"
    ForcedCancelled "forced-cancelled-by-judging"
    ManualCancelledAtTick "manual-cancelled-at-tick"
    ManualCancelledAtEvent "manual-cancelled-at-event"
    SelectionGained "selection-gained"
    SelectionLost "selection-lost"
    SelectionChanged "selection-changed-to-another"
    SelectionAtTick "selection-changed-at-tick"
    SelectionTwice "selection-changed-at-tick-and-at-event"
    LockedAtTickOnly "locked-first-at-tick-only"
    OneDueMoment "one-due-moment-in-one-tick"
    SeveralDueMoments "several-due-moments-in-one-tick"
    SixteenDueMoments "16-due-moments-or-more-in-one-tick"
    Forty8DueMoments "48-due-moments-in-one-tick"
    NotDistinct "due-moments-of-several-inputs-in-one-ms"
    NeedlessTimer "due-moment-of-a-timer-that-changes-nothing"
    ExpiryUnderCover "due-moment-of-a-frame-under-mode-off-or-fixed-quality"
    SeveralSelections "selection-changed-twice-in-one-tick"
    WinnerByTurn "one-choice-at-the-tick-would-select-another"
    ManualCancelledBetween "manual-cancelled-between-events-would-stand-at-tick"
    LockedBetweenOnly "locked-first-between-events-only"
    ForcedOntoFailed "forced-onto-passed-7"
    HoldOffFull "hold-off-exactly-full-at-event"
    HoldOffShort "hold-off-one-ms-short-at-event"
    HoldOffBetween "hold-off-ended-between-events"
    HoldOffShortened "hold-off-shortened-acted"
    WaitFull "wait-exactly-full-at-event"
    WaitShort "wait-one-ms-short-at-event"
    WaitBetween "wait-ended-between-events"
    WaitShortened "wait-shortened-acted"
    WaitAtExpiry "wait-and-frame-end-in-one-ms"
    WaitThenExpiry "wait-end-and-frame-expiry-since-last-event"
    WaitAnew "wait-cut-short-by-failure"
    FailureCostNothing "failure-below-hold-off-cost-nothing"
    Frame4999 "event-in-frames-4999th-ms"
    Frame5000 "event-in-frames-5000th-ms"
    Frame5001 "event-in-frames-5001st-ms"
    ExpiryAtEvent "frame-expiry-at-event"
    ExpiryBetween "frame-expiry-between-events"
    RenewedIn5000 "frame-renewed-in-5000th-ms"
    ExpiryAndHoldOffBetween "frame-expiry-and-hold-off-between-events"
    UncoveredSilence "silence-uncovered"
    ClearWaitActed "clear-wait-acted"
    ClearWaitOnFailed "clear-wait-on-failed-run"
    TieKept "tie-kept-against-lower-number"
    TieKeptAfterSwitch "tie-kept-after-switch"
    TieLowest "tie-lowest-number"
    KindSetAgain "kind-set-on-input-passing-quality"
    BelowFloor "input-not-eligible-for-its-floor-only"
    BetterBelowFloor "input-below-its-floor-with-lower-quality-than-the-selected"
    ForcedBelowFloor "forced-onto-input-below-its-floor"
    ManualFellByFloor "manual-cancelled-by-a-floor-event"
    ManualRefusedByFloor "manual-refused-for-the-floor-only"
    LockedToProv "option-2-locked-to-prov"
    ProvChosenOver "option-2-prov-better-than-another-eligible"
    ProvNotChosen "option-2-prov-worse-than-another-eligible"
    ProvUnplacedModeOff "option-2-unusable-prov-eligible-with-mode-off"
    LockedToSt4 "option-2-locked-to-st4"
    LockedToTncOrSt3e "option-2-locked-to-tnc-or-st3e"
    Words "accepted-words"
    WordSettled "word-settled"
    WordSettledInvalid "word-settled-not-listed"
    WordForgotten "word-forgotten-by-third-kind-on-third-kind"
    PassedNotTold "passed-0-with-mode-on"
    PassedWithModeOff "passed-1-to-6-with-mode-off"
    AnotherByte "malformed-for-another-byte-only"
    BeforeProfile "malformed-before-the-profile-is-set"
    RefusedFirst "refused-and-sets-the-profile"
    SameMillisecond "event-in-millisecond-of-the-one-before"
    LastTime "event-in-last-millisecond"
}

/// Numbers of refusal a log can carry, from 1.
const NUMBERS: usize = 18;

struct Counts {
    items: [u64; NAMES.len()],
    numbers: [u64; NUMBERS],
}

impl Counts {
    fn add(&mut self, item: Item) {
        self.items[item as usize] += 1;
    }

    fn add_if(&mut self, item: Item, holds: bool) {
        self.items[item as usize] += u64::from(holds);
    }

    fn write(&self, output: &mut impl Write) -> io::Result<()> {
        for (name, count) in NAMES.iter().zip(self.items) {
            writeln!(output, "{name} {count}")?;
        }
        for number in (1..NUMBERS).filter(|number| *number != 3) {
            writeln!(output, "refusal-{number} {}", self.numbers[number])?;
        }
        Ok(())
    }
}

pub fn count(start: Start, log: impl Read, output: &mut impl Write) -> io::Result<()> {
    let mut log = LogReader::new(log);
    let mut counts = Counts {
        items: [0; NAMES.len()],
        numbers: [0; NUMBERS],
    };
    let mut replay = Replay::fresh(start);
    while let Some(digits) = log.next_line()? {
        let set_before = replay.profile_is_set();
        let number = match replay.read(digits) {
            None => count_malformed(digits, &replay, &mut counts),
            Some(line) => take(&line, &mut replay.selector, &mut counts),
        };
        let refused_first = !set_before && replay.profile_is_set() && number != 0;
        counts.add_if(Item::RefusedFirst, refused_first);
        counts.numbers[usize::from(number)] += 1;
        counts.add(Item::Lines);
    }
    counts.items[Item::Accepted as usize] = counts.numbers[0];
    counts.write(output)
}

/// A malformed line; some are so for their byte alone.
fn count_malformed(digits: &[u8], replay: &Replay, counts: &mut Counts) -> u8 {
    counts.add_if(Item::AnotherByte, line::read(digits).is_some());
    counts.add_if(Item::BeforeProfile, !replay.profile_is_set());
    1
}

/// `line::take`, with a look at the state before, between and after.
fn take(line: &Line, selector: &mut Selector, counts: &mut Counts) -> u8 {
    let (event, input) = match line::check(line, selector) {
        Err(number) => return number,
        Ok(taken) => taken,
    };
    count_time(selector, line.time, counts);
    let before = Shown::of(selector);
    let own_input = &selector.inputs[usize::from(input.0)];
    let expiring = silent_from(selector, own_input) == line.time;
    tick(selector, line.time, counts);
    let ticked = Shown::of(selector);
    let number = selector.command_refusal(event, input);
    counts.add_if(
        Item::ManualRefusedByFloor,
        number == 16 && below_floor(selector, &selector.inputs[usize::from(input.0)]),
    );
    if number == 0 {
        let input_before = selector.inputs[usize::from(input.0)].clone();
        selector.obey(event, input);
        let input_after = &selector.inputs[usize::from(input.0)];
        count_input(event, &input_before, input_after, expiring, counts);
        count_choice(&ticked, &Shown::of(selector), selector, counts);
        count_cancelled(event, &ticked, selector, counts);
    }
    count_line(&before, &ticked, selector, counts);
    number
}

/// `Selector::tick`, with a look at each due moment.
fn tick(selector: &mut Selector, time: Time, counts: &mut Counts) {
    let first = Shown::of(selector);
    let mut with_one_choice = selector.clone();
    let (mut served, mut selections, mut locked_between) = (0, 0, false);
    while selector.next_due() <= time {
        let before = Shown::of(selector);
        count_due(selector, counts);
        selector.serve_next_due();
        let after = Shown::of(selector);
        count_choice(&before, &after, selector, counts);
        served += 1;
        selections += u64::from(before.selected != after.selected);
        locked_between |= after.was_locked && !before.was_locked;
    }
    selector.tick(time);
    with_one_choice.tick_with_one_choice(time);
    let ticked = Shown::of(selector);
    counts.add_if(Item::OneDueMoment, served == 1);
    counts.add_if(Item::SeveralDueMoments, served > 1);
    counts.add_if(Item::SixteenDueMoments, served >= 16);
    counts.add_if(Item::Forty8DueMoments, served == 48);
    counts.add_if(Item::SeveralSelections, selections > 1);
    counts.add_if(
        Item::WinnerByTurn,
        ticked.selected != with_one_choice.selected,
    );
    let fell_between = ticked.switch != with_one_choice.switch;
    counts.add_if(Item::ManualCancelledBetween, fell_between);
    let locked_now = ticked.clock_state == ClockState::Locked;
    counts.add_if(
        Item::LockedBetweenOnly,
        locked_between && !locked_now && !first.was_locked,
    );
}

/// What ends in the next due moment, seen before it is served.
fn count_due(selector: &Selector, counts: &mut Counts) {
    let moment = selector.next_due();
    let mut inputs_due = 0;
    for input in &selector.inputs {
        let expires = input
            .heard
            .frame
            .is_some_and(|(_, came)| came + FRAME_LIFE == moment);
        let timer = if input.raw.failed() {
            input.hold_off
        } else {
            input.wait
        };
        let ends = input.run_began + timer == moment;
        inputs_due += u64::from(expires || ends);
        let covered = !selector.quality_mode || input.fixed.is_some();
        counts.add_if(Item::ExpiryUnderCover, expires && covered);
        counts.add_if(
            Item::NeedlessTimer,
            ends && input.raw.failed() == input.down,
        );
    }
    counts.add_if(Item::NotDistinct, inputs_due > 1);
}

/// What the choices of one line are compared by.
struct Shown {
    switch: Switch,
    selected: Option<InputNumber>,
    clock_state: ClockState,
    was_locked: bool,
}

impl Shown {
    fn of(selector: &Selector) -> Shown {
        Shown {
            switch: selector.switch,
            selected: selector.selected,
            clock_state: selector.clock_state,
            was_locked: selector.was_locked,
        }
    }
}

/// The 5,000th millisecond of the frame that gives an input's present raw quality.
fn silent_from(selector: &Selector, input: &Input) -> Time {
    let covered = !selector.quality_mode || input.fixed.is_some();
    match input.heard.frame {
        Some((_, came)) if !covered && !input.raw.failed() => came + FRAME_LIFE,
        _ => NEVER,
    }
}

/// What ends in the time up to an event, seen before its tick.
fn count_time(selector: &Selector, time: Time, counts: &mut Counts) {
    counts.add_if(Item::SameMillisecond, time == selector.time);
    counts.add_if(Item::LastTime, time == LAST_TIME);
    for input in &selector.inputs {
        let silent = silent_from(selector, input);
        counts.add_if(Item::ExpiryAtEvent, silent == time);
        counts.add_if(Item::ExpiryBetween, silent < time);
        count_frame_age(input, time, counts);
        count_hold_off(input, silent, time, counts);
        count_wait(input, silent, time, counts);
    }
}

fn count_frame_age(input: &Input, time: Time, counts: &mut Counts) {
    if let Some((_, came)) = input.heard.frame {
        match time - came {
            4_999 => counts.add(Item::Frame4999),
            5_000 => counts.add(Item::Frame5000),
            5_001 => counts.add(Item::Frame5001),
            _ => {}
        }
    }
}

fn count_hold_off(input: &Input, silent: Time, time: Time, counts: &mut Counts) {
    let wait_ends_first = input.run_began + input.wait < silent;
    let began = match (input.raw.failed(), input.down) {
        (true, false) => input.run_began,
        (false, down) if silent != NEVER && (!down || wait_ends_first) => silent,
        _ => return,
    };
    let end = began + input.hold_off;
    counts.add_if(Item::HoldOffFull, time == end);
    counts.add_if(Item::HoldOffShort, time + 1 == end);
    counts.add_if(Item::HoldOffBetween, time > end);
    counts.add_if(
        Item::ExpiryAndHoldOffBetween,
        time > end && !input.raw.failed(),
    );
}

fn count_wait(input: &Input, silent: Time, time: Time, counts: &mut Counts) {
    let end = input.run_began + input.wait;
    if input.raw.failed() || !input.down || silent < end {
        return;
    }
    if silent == end {
        counts.add_if(Item::WaitAtExpiry, time >= end);
        return;
    }
    counts.add_if(Item::WaitFull, time == end);
    counts.add_if(Item::WaitShort, time + 1 == end);
    counts.add_if(Item::WaitBetween, time > end);
    counts.add_if(Item::WaitThenExpiry, time >= silent);
}

/// What an event did to its own input after the tick.
fn count_input(event: Event, before: &Input, after: &Input, expiring: bool, counts: &mut Counts) {
    let came_up = before.down && !after.down;
    let went_down = !before.down && after.down;
    let began_to_fail = !before.raw.failed() && after.raw.failed();
    let recovered = before.raw.failed() && !after.raw.failed();
    counts.add_if(Item::WaitAnew, began_to_fail && before.down);
    counts.add_if(Item::FailureCostNothing, recovered && !before.down);
    match event {
        Event::Frame(_) => {
            counts.add(Item::Frames);
            counts.add_if(Item::RenewedIn5000, expiring && recovered);
        }
        Event::HoldOff(_) => counts.add_if(Item::HoldOffShortened, went_down),
        Event::Wait(_) => counts.add_if(Item::WaitShortened, came_up),
        Event::ClearWait => {
            counts.add_if(Item::ClearWaitActed, came_up);
            counts.add_if(Item::ClearWaitOnFailed, before.raw.failed());
        }
        Event::FixedQuality(None) => {
            counts.add_if(
                Item::UncoveredSilence,
                began_to_fail && after.heard.frame.is_some(),
            );
        }
        Event::Word(_) => {
            let settled = after.heard.settled != before.heard.settled;
            counts.add(Item::Words);
            counts.add_if(Item::WordSettled, settled);
            counts.add_if(
                Item::WordSettledInvalid,
                settled && after.raw == Quality::INVALID,
            );
        }
        Event::Kind(kind) => {
            counts.add_if(Item::KindSetAgain, began_to_fail && !after.down);
            let again = kind == Kind::Words && before.kind == Kind::Words;
            counts.add_if(Item::WordForgotten, again && before.heard.equal > 0);
        }
        _ => {}
    }
}

/// What one of a line's choices did, compared with the one just before.
fn count_choice(before: &Shown, after: &Shown, selector: &Selector, counts: &mut Counts) {
    match (before.switch, after.switch) {
        (was, is) if was == is => {}
        (Switch::None, Switch::Forced(_)) => counts.add(Item::NoneToForced),
        (Switch::None, Switch::Manual(_)) => counts.add(Item::NoneToManual),
        (Switch::Forced(_), Switch::None) => counts.add(Item::ForcedToNone),
        (Switch::Forced(_), Switch::Forced(_)) => counts.add(Item::ForcedToForced),
        (Switch::Forced(_), Switch::Manual(_)) => counts.add(Item::ForcedToManual),
        (Switch::Manual(_), Switch::None) => counts.add(Item::ManualToNone),
        (Switch::Manual(_), Switch::Forced(_)) => counts.add(Item::ManualToForced),
        (Switch::Manual(_), Switch::Manual(_)) => counts.add(Item::ManualToManual),
        (Switch::None, Switch::None) => {}
    }
    match (before.selected, after.selected) {
        (was, is) if was == is => {}
        (None, _) => counts.add(Item::SelectionGained),
        (_, None) => counts.add(Item::SelectionLost),
        _ => counts.add(Item::SelectionChanged),
    }
    if after.switch == Switch::None && selector.full_equals() > 1 {
        count_tie(before, after, selector, counts);
    }
}

fn count_tie(before: &Shown, after: &Shown, selector: &Selector, counts: &mut Counts) {
    let kept = before.selected == after.selected;
    counts.add_if(Item::TieLowest, !kept);
    let Some(selected) = after.selected else {
        return;
    };
    let lower_number_equal = selector.lowest_equal() != Some(selected);
    counts.add_if(Item::TieKept, kept && lower_number_equal);
    let switched = before.switch != Switch::None;
    counts.add_if(
        Item::TieKeptAfterSwitch,
        kept && lower_number_equal && switched,
    );
}

/// Switches that fell by the event itself without being cleared or replaced.
fn count_cancelled(event: Event, ticked: &Shown, selector: &Selector, counts: &mut Counts) {
    if selector.switch != Switch::None || event == Event::ClearSwitch {
        return;
    }
    match ticked.switch {
        Switch::None => {}
        Switch::Forced(_) => counts.add(Item::ForcedCancelled),
        Switch::Manual(_) => {
            counts.add(Item::ManualCancelledAtEvent);
            counts.add_if(Item::ManualFellByFloor, matches!(event, Event::Floor(_)));
        }
    }
}

/// Whether only its floor keeps an input from being eligible.
fn below_floor(selector: &Selector, input: &Input) -> bool {
    let could_be_followed = selector.profile.place(input.passed()).is_some();
    selector.quality_mode
        && !input.off_or_locked()
        && could_be_followed
        && !input.usable(selector.quality_mode)
}

/// What the floors keep out of the choice.
fn count_floors(selector: &Selector, counts: &mut Counts) {
    let below = selector
        .inputs
        .iter()
        .filter(|input| below_floor(selector, input))
        .map(Input::passed)
        .min();
    counts.add_if(Item::BelowFloor, below.is_some());
    let place = |quality| selector.profile.place(quality);
    let better = below.is_some_and(|quality| {
        let locked = selector.clock_state == ClockState::Locked;
        locked && place(quality) < place(selector.clock_quality)
    });
    counts.add_if(Item::BetterBelowFloor, better);
    if let Switch::Forced(input) = selector.switch {
        let input = &selector.inputs[usize::from(input.0)];
        counts.add_if(Item::ForcedBelowFloor, below_floor(selector, input));
    }
}

/// What a line left, and what its tick did that its answer doesn't show.
fn count_line(before: &Shown, ticked: &Shown, selector: &Selector, counts: &mut Counts) {
    let changed_at_tick = before.selected != ticked.selected;
    counts.add_if(Item::SelectionAtTick, changed_at_tick);
    counts.add_if(
        Item::SelectionTwice,
        changed_at_tick && ticked.selected != selector.selected,
    );
    let fell_at_tick = before.switch != Switch::None && ticked.switch == Switch::None;
    counts.add_if(Item::ManualCancelledAtTick, fell_at_tick);
    let locked_first = !before.was_locked && ticked.clock_state == ClockState::Locked;
    let locked = selector.clock_state == ClockState::Locked;
    counts.add_if(Item::LockedAtTickOnly, locked_first && !locked);
    counts.add(match selector.clock_state {
        ClockState::FreeRun => Item::FreeRun,
        ClockState::Holdover => Item::Holdover,
        ClockState::Locked => Item::Locked,
    });
    if let Switch::Forced(input) = selector.switch {
        let passed = selector.inputs[usize::from(input.0)].passed();
        counts.add_if(Item::ForcedOntoFailed, passed.failed());
    }
    count_passed(selector, counts);
    count_floors(selector, counts);
    if selector.profile != Profile::OptionI {
        count_option_two(selector, counts);
    }
}

/// What only option II has.
fn count_option_two(selector: &Selector, counts: &mut Counts) {
    let mode = selector.quality_mode;
    let eligible = |wanted: fn(Quality) -> bool| {
        let mut inputs = selector.inputs.iter().filter(|input| input.eligible(mode));
        inputs.any(|input| wanted(input.passed()))
    };
    let (prov, other) = (
        eligible(|quality| quality == PROV),
        eligible(|quality| quality != PROV),
    );
    let locked = selector.clock_state == ClockState::Locked;
    let to = |quality| mode && locked && selector.clock_quality == quality;
    counts.add_if(Item::LockedToProv, to(PROV));
    counts.add_if(Item::ProvChosenOver, to(PROV) && other);
    counts.add_if(Item::ProvNotChosen, mode && locked && !to(PROV) && prov);
    counts.add_if(Item::ProvUnplacedModeOff, !mode && prov);
    counts.add_if(Item::LockedToSt4, to(ST4));
    counts.add_if(Item::LockedToTncOrSt3e, to(TNC) || to(ST3E));
}

fn count_passed(selector: &Selector, counts: &mut Counts) {
    let passes =
        |told: fn(Quality) -> bool| selector.inputs.iter().any(|input| told(input.passed()));
    if selector.quality_mode {
        counts.add_if(
            Item::PassedNotTold,
            passes(|passed| passed == Quality::NOT_TOLD),
        );
    } else {
        let told = passes(|passed| passed != Quality::NOT_TOLD && !passed.failed());
        counts.add_if(Item::PassedWithModeOff, told);
    }
}

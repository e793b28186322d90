//! The rules of document 01 with the requests of document 02 that have landed: raw and
//! passed quality, due moments, choosing, switches, clock, outgoing codes.
//!
//! Kept by timers. Each input knows its next due moment, so an event touches its own
//! input and whatever is due, and nothing else. `naive.rs` has the same rules without
//! any such thought; the two are compared.
//!
//! Sentences in quotation marks are document 01's or, where a request is named, document
//! 02's; "readings" is READINGS.md and READINGS-02.md.

/// Milliseconds since the start.
pub type Time = u64;

/// Later than any time a log can carry.
pub const NEVER: Time = Time::MAX;

/// A count of due moments. L4: "never above 48", wait, expiry and hold-off of each input.
pub type DueMoments = u32;

/// The four bits of an SSM.
pub type Code = u8;

/// L12: "the sixteen-bit status words of table 6".
pub type Word = u16;

/// What a line or a 1,544 kbit/s input reports: a code or a word.
pub type Report = u16;

pub const INPUTS: usize = 16;

pub const MINUTE: Time = 60_000;

const FRESH_HOLD_OFF: Time = 300;

/// "if it came less than 5,000 ms ago"
pub const FRAME_LIFE: Time = 5_000;

// "An input number, a priority and a quality number are three kinds of number and
// are never exchanged for one another."

#[derive(Clone, Copy, PartialEq, Eq, Debug)]
pub struct InputNumber(pub u8);

#[derive(Clone, Copy, PartialEq, Eq, PartialOrd, Ord, Debug)]
pub struct Priority(pub u8);

#[derive(Clone, Copy, PartialEq, Eq, PartialOrd, Ord)]
pub struct Quality(pub u8);

impl InputNumber {
    fn index(self) -> usize {
        usize::from(self.0)
    }
}

impl Priority {
    /// "priority 1 to 16 (1 best) or 0 = off"
    pub const OFF: Priority = Priority(0);
}

impl Quality {
    /// "0 is 'not told', used when quality is off"
    pub const NOT_TOLD: Quality = Quality(0);
    /// L10: "Invalid, failed and not-told become 11, 12 and 0." Option I's 6 and 7 are kept
    /// as 11 and 12 too: no answer shows them.
    pub const INVALID: Quality = Quality(11);
    pub const FAILED: Quality = Quality(12);

    pub fn failed(self) -> bool {
        self == Quality::FAILED
    }
}

/// Invalid and failed as document 01 numbers them: whoever follows the moments of a replay
/// (of option I) looks for these.
impl std::fmt::Debug for Quality {
    fn fmt(&self, out: &mut std::fmt::Formatter) -> std::fmt::Result {
        let number = match *self {
            Quality::INVALID => 6,
            Quality::FAILED => 7,
            Quality(number) => number,
        };
        write!(out, "Quality({number})")
    }
}

/// An event whose line has been found in order, without its time and its input.
#[derive(Clone, Copy, PartialEq, Eq, Debug)]
pub enum Event {
    SignalGood,
    SignalFail,
    Frame(Code),
    LineCode(Code),
    Word(Word),
    Priority(Priority),
    Lockout(bool),
    HoldOff(Time),
    Wait(Time),
    FixedQuality(Option<Quality>),
    Floor(Quality),
    ClearWait,
    Forced,
    Manual,
    ClearSwitch,
    QualityMode(bool),
    Sending(bool),
    Tick,
    Kind(Kind),
}

/// "kind (line or Ethernet)"; L12: "An input may be of this third kind".
#[derive(Clone, Copy, PartialEq, Eq, Debug)]
pub enum Kind {
    Line,
    Ethernet,
    Words,
}

/// "the codes heard, the count of equal ones and the frames heard"
#[derive(Clone, Debug)]
pub struct Heard {
    /// "the last code that came in three consecutive code reports"; L12: words too are
    /// "accepted after three equal consecutive reports and forgotten as codes are".
    pub settled: Option<Report>,
    pub latest: Report,
    pub equal: u8,
    /// Code and time of "the last accepted frame".
    pub frame: Option<(Code, Time)>,
}

impl Heard {
    const NOTHING: Heard = Heard {
        settled: None,
        latest: 0,
        equal: 0,
        frame: None,
    };

    fn code_report(&mut self, code: Code) {
        self.report(code.into());
    }

    /// Readings: "the same four bits, three recorded reports of this input in a row", and "the
    /// same sixteen bits". An input has codes or words, never both: a kind event forgets.
    fn report(&mut self, code: Report) {
        if self.equal > 0 && self.latest == code {
            self.equal = 3.min(self.equal + 1);
        } else {
            self.latest = code;
            self.equal = 1;
        }
        if self.equal == 3 {
            self.settled = Some(code);
        }
    }

    /// "before any such code, 7"
    fn line_quality(&self, profile: Profile) -> Quality {
        self.settled
            .map_or(Quality::FAILED, |code| profile.quality_of(code as Code))
    }

    /// Readings: "Before any: failed".
    fn word_quality(&self, profile: Profile) -> Quality {
        self.settled
            .map_or(Quality::FAILED, |word| profile.quality_of_word(word))
    }

    /// "the code of the last accepted frame, if it came less than 5,000 ms ago;
    /// otherwise 7"
    fn ethernet_quality(&self, now: Time, profile: Profile) -> Quality {
        match self.frame {
            Some((code, came)) if now - came < FRAME_LIFE => profile.quality_of(code),
            _ => Quality::FAILED,
        }
    }
}

/// One of the sixteen inputs.
#[derive(Clone, Debug)]
pub struct Input {
    pub profile: Profile,
    pub kind: Kind,
    pub priority: Priority,
    pub locked_out: bool,
    pub hold_off: Time,
    pub wait: Time,
    pub fixed: Option<Quality>,
    /// L9: the worst quality that is followed.
    pub floor: Quality,
    pub sending: bool,
    pub failing: bool,
    pub heard: Heard,
    /// Raw quality at the last moment looked at.
    pub raw: Quality,
    /// When the present run began.
    pub run_began: Time,
    /// The last raw quality that wasn't failed.
    pub raw_before_failure: Quality,
    /// Whether "the last down or up moment was down".
    pub down: bool,
}

impl Input {
    /// "Fresh: line, priority 0, not locked, 300 ms, 5 minutes, none fixed, sending
    /// on, signal failing." And: "Time 0, fresh, is down."
    fn fresh(profile: Profile) -> Input {
        Input {
            profile,
            kind: Kind::Line,
            priority: Priority::OFF,
            locked_out: false,
            hold_off: FRESH_HOLD_OFF,
            wait: 5 * MINUTE,
            fixed: None,
            floor: profile.fresh_floor(),
            sending: true,
            failing: true,
            heard: Heard::NOTHING,
            raw: Quality::FAILED,
            run_began: 0,
            raw_before_failure: Quality::FAILED,
            down: true,
        }
    }

    /// "In this order: signal failing gives 7; quality mode off gives 0; a fixed
    /// quality gives itself; otherwise what was heard."
    fn raw_at(&self, now: Time, quality_mode: bool) -> Quality {
        if self.failing {
            Quality::FAILED
        } else if !quality_mode {
            Quality::NOT_TOLD
        } else if let Some(fixed) = self.fixed {
            fixed
        } else {
            self.heard_quality(now)
        }
    }

    fn heard_quality(&self, now: Time) -> Quality {
        match self.kind {
            Kind::Line => self.heard.line_quality(self.profile),
            Kind::Ethernet => self.heard.ethernet_quality(now, self.profile),
            Kind::Words => self.heard.word_quality(self.profile),
        }
    }

    /// Takes one moment into account: the run it belongs to, and whether it is down
    /// or up with the settings now in force. "At one and the same millisecond an expired
    /// frame comes first": it is the raw quality of that millisecond.
    fn moment(&mut self, now: Time, quality_mode: bool) {
        let raw = self.raw_at(now, quality_mode);
        if raw.failed() != self.raw.failed() {
            self.run_began = now;
        }
        self.raw = raw;
        let run = now - self.run_began;
        if raw.failed() {
            // "down if the present run is failed and began at least the hold-off ago"
            if run >= self.hold_off {
                self.down = true;
            }
        } else {
            self.raw_before_failure = raw;
            // "up if the present run is not failed and [...] began at least the wait ago"
            if run >= self.wait {
                self.down = false;
            }
        }
    }

    /// The next due moment of this input after a time. L3: "a frame expiring, a hold-off
    /// ending, a wait ending". L4: "a frame expires whatever the mode or fixed quality, a
    /// timer ends at run start plus setting, needed or not"; readings: the present run's own.
    fn due(&self, after: Time) -> Time {
        let expires = self
            .heard
            .frame
            .map_or(NEVER, |(_, came)| came + FRAME_LIFE);
        let timer = if self.raw.failed() {
            self.hold_off
        } else {
            self.wait
        };
        [expires, self.run_began + timer]
            .into_iter()
            .filter(|&end| end > after)
            .fold(NEVER, Time::min)
    }

    /// "If the last down or up moment was down, the passed quality is 7. Otherwise it
    /// is the raw quality, or, in a failed run, the last raw quality before that run."
    pub fn passed(&self) -> Quality {
        if self.down {
            Quality::FAILED
        } else {
            self.raw_before_failure
        }
    }

    pub fn off_or_locked(&self) -> bool {
        self.priority == Priority::OFF || self.locked_out
    }

    /// "not 7 with mode off"; with mode on what is within the input's floor (L9).
    pub fn usable(&self, quality_mode: bool) -> bool {
        if quality_mode {
            self.profile.within(self.passed(), self.floor)
        } else {
            !self.passed().failed()
        }
    }

    /// "Eligible: priority not 0, not locked, passed quality not 7, and with quality
    /// mode on" what is usable.
    pub fn eligible(&self, quality_mode: bool) -> bool {
        !self.off_or_locked() && self.usable(quality_mode)
    }

    /// "A repeated fail or good changes nothing."
    fn signal(&mut self, failing: bool) {
        if failing && !self.failing {
            self.heard = Heard::NOTHING;
        }
        self.failing = failing;
    }

    /// What an event does to its own input.
    fn obey(&mut self, event: Event, now: Time) {
        match event {
            Event::SignalGood => self.signal(false),
            Event::SignalFail => self.signal(true),
            // "While the signal fails, reports of codes and frames are checked and
            // accepted but not recorded."
            Event::Frame(code) if !self.failing => self.heard.frame = Some((code, now)),
            Event::LineCode(code) if !self.failing => self.heard.code_report(code),
            Event::Word(word) if !self.failing => self.heard.report(word),
            Event::Priority(priority) => self.priority = priority,
            Event::Lockout(set) => self.locked_out = set,
            Event::HoldOff(hold_off) => self.hold_off = hold_off,
            Event::Wait(wait) => self.wait = wait,
            Event::FixedQuality(fixed) => self.fixed = fixed,
            Event::Floor(floor) => self.floor = floor,
            Event::Sending(on) => self.sending = on,
            // "any event setting its kind, forget the codes heard"
            Event::Kind(kind) => {
                self.kind = kind;
                self.heard = Heard::NOTHING;
            }
            // "or the event of that very moment is a clear-wait on it"
            Event::ClearWait if !self.raw.failed() => self.down = false,
            _ => {}
        }
    }
}

#[derive(Clone, Copy, PartialEq, Eq, Debug)]
pub enum Switch {
    None,
    Forced(InputNumber),
    Manual(InputNumber),
}

#[derive(Clone, Copy, PartialEq, Eq, Debug)]
pub enum ClockState {
    FreeRun = 0,
    Holdover = 1,
    Locked = 2,
}

/// The place of an input in the choice: lower is better, equal is "full equals".
type Rank = u16;

const NOT_ELIGIBLE: Rank = Rank::MAX;

#[derive(Clone)]
pub struct Selector {
    pub profile: Profile,
    pub time: Time,
    pub quality_mode: bool,
    pub inputs: [Input; INPUTS],
    pub switch: Switch,
    /// What the last choice selected.
    pub selected: Option<InputNumber>,
    pub clock_state: ClockState,
    pub clock_quality: Quality,
    /// Whether the clock was locked after any choice so far.
    pub was_locked: bool,
    ranks: [Rank; INPUTS],
    /// The next due moment of each input, and the earliest of them.
    due: [Time; INPUTS],
    earliest_due: Time,
}

impl Selector {
    /// "The selector starts at time 0, quality mode on, no switch, nothing selected."
    pub fn fresh() -> Selector {
        Selector::started(Profile::OptionI)
    }

    /// The same in either option.
    pub fn started(profile: Profile) -> Selector {
        Selector {
            profile,
            time: 0,
            quality_mode: true,
            inputs: std::array::from_fn(|_| Input::fresh(profile)),
            switch: Switch::None,
            selected: None,
            clock_state: ClockState::FreeRun,
            clock_quality: profile.own_quality(),
            was_locked: false,
            ranks: [NOT_ELIGIBLE; INPUTS],
            due: [FRESH_HOLD_OFF; INPUTS],
            earliest_due: FRESH_HOLD_OFF,
        }
    }

    /// The tick that each accepted event is first. L3: it "serves each due moment in time
    /// order", those later than the state's time and not later than its own. A choice at
    /// its own time with nothing due would only repeat the one just before. Answers L4's
    /// "number of due moments served by a tick".
    pub fn tick(&mut self, now: Time) -> DueMoments {
        let mut served = 0;
        while self.next_due() <= now {
            self.serve_next_due();
            served += 1;
        }
        self.time = now;
        served
    }

    pub fn next_due(&self) -> Time {
        self.earliest_due
    }

    /// One due moment. L3: "bringing all inputs up to date at that millisecond, judging
    /// the switch and choosing". An input with nothing due there is up to date already.
    pub fn serve_next_due(&mut self) {
        self.bring_up_to_date(self.earliest_due);
        self.judge_and_choose();
    }

    fn bring_up_to_date(&mut self, moment: Time) {
        self.time = moment;
        for n in 0..INPUTS {
            if self.due[n] == moment {
                self.inputs[n].moment(moment, self.quality_mode);
                self.due[n] = self.inputs[n].due(moment);
                self.rank_anew(n);
            }
        }
        self.find_earliest_due();
    }

    fn find_earliest_due(&mut self) {
        self.earliest_due = self.due.iter().copied().fold(NEVER, Time::min);
    }

    /// What a tick was before L3, which chose at its own time only; `count` compares.
    pub fn tick_with_one_choice(&mut self, now: Time) {
        while self.next_due() <= now {
            self.bring_up_to_date(self.earliest_due);
        }
        self.time = now;
        self.judge_and_choose();
    }

    /// Numbers 14 to 17, which "are judged after the tick"; 0 where none applies.
    pub fn command_refusal(&self, event: Event, input: InputNumber) -> u8 {
        match event {
            Event::Forced if self.inputs[input.index()].off_or_locked() => 14,
            Event::Manual if matches!(self.switch, Switch::Forced(_)) => 15,
            Event::Manual if self.ranks[input.index()] == NOT_ELIGIBLE => 16,
            Event::Manual if self.lower_quality_than(input) => 17,
            _ => 0,
        }
    }

    /// "the event itself at that moment (the same again)". To be called after `tick`.
    pub fn obey(&mut self, event: Event, input: InputNumber) {
        let changed = match event {
            Event::Tick => false,
            Event::Forced => self.set_switch(Switch::Forced(input)),
            Event::Manual => self.set_switch(Switch::Manual(input)),
            Event::ClearSwitch => self.set_switch(Switch::None),
            Event::QualityMode(on) => self.set_quality_mode(on),
            _ => self.obey_at_input(event, input),
        };
        if changed {
            self.judge_and_choose();
        }
    }

    fn set_switch(&mut self, switch: Switch) -> bool {
        self.switch = switch;
        true
    }

    fn set_quality_mode(&mut self, on: bool) -> bool {
        self.quality_mode = on;
        for n in 0..INPUTS {
            self.event_moment(n);
        }
        self.find_earliest_due();
        true
    }

    /// Whether the choice can have changed: the judging of switches, the choice and the
    /// clock go by ranks, and besides by an input being off or locked.
    fn obey_at_input(&mut self, event: Event, input: InputNumber) -> bool {
        let n = input.index();
        self.inputs[n].obey(event, self.time);
        let ranked_anew = self.event_moment(n);
        self.find_earliest_due();
        ranked_anew || matches!(event, Event::Priority(_) | Event::Lockout(_))
    }

    /// The event's own moment at one input, with the new settings in force.
    fn event_moment(&mut self, n: usize) -> bool {
        self.inputs[n].moment(self.time, self.quality_mode);
        self.due[n] = self.inputs[n].due(self.time);
        self.rank_anew(n)
    }

    /// "Better: lower passed quality (mode on only), then lower priority number." L10: PROV
    /// "then ranks there", where it is placed.
    fn rank_anew(&mut self, n: usize) -> bool {
        let input = &self.inputs[n];
        let priority = Rank::from(input.priority.0);
        let rank = match self.profile.place(input.passed()) {
            _ if !input.eligible(self.quality_mode) => NOT_ELIGIBLE,
            Some(place) if self.quality_mode => Rank::from(place) << 8 | priority,
            _ => priority,
        };
        let changed = rank != self.ranks[n];
        self.ranks[n] = rank;
        changed
    }

    fn best_rank(&self) -> Rank {
        self.ranks
            .iter()
            .fold(NOT_ELIGIBLE, |best, &rank| best.min(rank))
    }

    /// "(mode on) an eligible input has lower passed quality" than this eligible one.
    fn lower_quality_than(&self, input: InputNumber) -> bool {
        self.quality_mode && self.best_rank() >> 8 < self.ranks[input.index()] >> 8
    }

    fn judge_and_choose(&mut self) {
        if !self.switch_stands() {
            self.switch = Switch::None;
        }
        self.selected = self.choice();
        self.set_clock();
    }

    /// Forced "stands until cleared, replaced by another forced switch, or its input is
    /// off or locked". Manual "stands while its input is eligible and, mode on, no
    /// eligible input has lower passed quality".
    fn switch_stands(&self) -> bool {
        match self.switch {
            Switch::None => true,
            Switch::Forced(input) => !self.inputs[input.index()].off_or_locked(),
            Switch::Manual(input) => {
                self.ranks[input.index()] != NOT_ELIGIBLE && !self.lower_quality_than(input)
            }
        }
    }

    fn choice(&self) -> Option<InputNumber> {
        match self.switch {
            Switch::Forced(input) | Switch::Manual(input) => Some(input),
            Switch::None => self.choice_by_comparing(),
        }
    }

    /// "Full equals: keep the one selected at the choice just before, otherwise lowest
    /// input number."
    fn choice_by_comparing(&self) -> Option<InputNumber> {
        let lowest = self.lowest_equal()?;
        match self.selected {
            Some(kept) if self.ranks[kept.index()] == self.ranks[lowest.index()] => Some(kept),
            _ => Some(lowest),
        }
    }

    /// Of the best eligible inputs the one with the lowest input number.
    pub fn lowest_equal(&self) -> Option<InputNumber> {
        let best = self.best_rank();
        if best == NOT_ELIGIBLE {
            return None;
        }
        self.ranks
            .iter()
            .position(|&rank| rank == best)
            .map(|n| InputNumber(n as u8))
    }

    fn set_clock(&mut self) {
        let locked_to = self
            .selected
            .map(|input| &self.inputs[input.index()])
            .filter(|input| input.usable(self.quality_mode))
            .map(Input::passed);
        self.clock_state = self.clock_state_when(locked_to.is_some());
        // "Clock quality: 0 with mode off; the passed quality when locked; otherwise 4", or
        // 6 in option II.
        self.clock_quality = match locked_to {
            _ if !self.quality_mode => Quality::NOT_TOLD,
            Some(passed) => passed,
            None => self.profile.own_quality(),
        };
        self.was_locked |= locked_to.is_some();
    }

    /// "02 locked if an input is selected and its passed quality is usable [...];
    /// otherwise 01 holdover if it was locked after any earlier choice, 00 free run if
    /// not." (L7 took 03 away: a standing manual switch is on an eligible input.)
    fn clock_state_when(&self, locked: bool) -> ClockState {
        if locked {
            ClockState::Locked
        } else if self.was_locked {
            ClockState::Holdover
        } else {
            ClockState::FreeRun
        }
    }

    /// The answer line's values after its number: "selected input or ff, clock state,
    /// clock quality, switch (00 none, 01 forced, 02 manual), its input or ff".
    pub fn answer_values(&self) -> [u8; 5] {
        let selected = self.selected.map_or(0xff, |input| input.0);
        let (switch, its_input) = match self.switch {
            Switch::None => (0, 0xff),
            Switch::Forced(input) => (1, input.0),
            Switch::Manual(input) => (2, input.0),
        };
        [
            selected,
            self.clock_state as u8,
            self.clock_quality.0,
            switch,
            its_input,
        ]
    }

    /// "Outgoing code, for each of the sixteen ports: 1111 if mode is off, if its sending
    /// is off, or if it is the selected input; otherwise the code of the clock quality."
    pub fn outgoing_code(&self, port: InputNumber) -> Code {
        let told =
            self.quality_mode && self.inputs[port.index()].sending && self.selected != Some(port);
        if told {
            self.profile.code_of(self.clock_quality, port)
        } else {
            0b1111
        }
    }

    /// L12: the word of a port, "With sending off the word is 08FF"; "With sending on, mode off
    /// or the selected port gives 30FF". Nothing in option I.
    pub fn outgoing_word(&self, port: InputNumber) -> Option<Word> {
        let of_clock = self.profile.word_of(self.clock_quality, port)?;
        if !self.inputs[port.index()].sending {
            Some(NOT_SENDING)
        } else if !self.quality_mode || self.selected == Some(port) {
            Some(NOT_TO_BE_USED_WORD)
        } else {
            Some(of_clock)
        }
    }

    /// How many eligible inputs share the best place.
    pub fn full_equals(&self) -> usize {
        let best = self.best_rank();
        if best == NOT_ELIGIBLE {
            return 0;
        }
        self.ranks.iter().filter(|&&rank| rank == best).count()
    }
}

/// L10: "A profile chosen once, at the fresh start": what a quality's number means in option I
/// and in option II, how qualities rank, and what they are told as.
#[derive(Clone, Copy, PartialEq, Eq, Debug)]
pub enum Profile {
    OptionI,
    OptionII(Placed),
}

/// What is given with option II.
#[derive(Clone, Copy, PartialEq, Eq, Debug)]
pub struct Placed {
    /// "the place of PROV (0 none, 1 to 8)", just below which it ranks.
    prov: u8,
    /// Bit i for port i: "A port marked first generation".
    marks: u16,
}

/// A place among the qualities that can be followed: lower is better.
type Place = u8;

// Option I.
pub const PRC: Quality = Quality(1);
pub const SSU_A: Quality = Quality(2);
pub const SSU_B: Quality = Quality(3);
pub const SEC: Quality = Quality(4);
pub const DNU: Quality = Quality(5);

// Option II.
pub const PRS: Quality = Quality(1);
pub const STU: Quality = Quality(2);
pub const ST2: Quality = Quality(3);
pub const TNC: Quality = Quality(4);
pub const ST3E: Quality = Quality(5);
pub const ST3: Quality = Quality(6);
pub const SIC: Quality = Quality(7);
pub const ST4: Quality = Quality(8);
pub const PROV: Quality = Quality(9);
pub const DUS: Quality = Quality(10);

/// "Do not use", in both options.
const NOT_TO_BE_USED: Code = 0b1111;

/// "A port marked first generation sends TNC and ST3E as 1010."
const FIRST_GENERATION: Code = 0b1010;

/// L12: the same for words.
const NOT_TO_BE_USED_WORD: Word = 0x30ff;
const FIRST_GENERATION_WORD: Word = 0x10ff;

/// "With sending off the word is 08FF, which a receiver reads as STU".
const NOT_SENDING: Word = 0x08ff;

impl Profile {
    /// Option II; nothing for a place of PROV that is out of range, "otherwise refusal 6 and
    /// no start".
    pub fn option_two(place: u64, marks: u16) -> Option<Profile> {
        let prov = u8::try_from(place).ok().filter(|place| *place <= ST4.0)?;
        Some(Profile::OptionII(Placed { prov, marks }))
    }

    /// L12: words are for option II only; "in option I it stays unknown".
    pub fn knows_words(self) -> bool {
        matches!(self, Profile::OptionII(_))
    }

    /// L12's table; "Words not listed read as invalid."
    pub fn quality_of_word(self, word: Word) -> Quality {
        match word {
            0x04ff => PRS,
            0x08ff => STU,
            0x0cff => ST2,
            0x78ff => TNC,
            0x7cff => ST3E,
            0x10ff => ST3,
            0x22ff => SIC,
            0x28ff => ST4,
            0x40ff => PROV,
            0x30ff => DUS,
            _ => Quality::INVALID,
        }
    }

    /// The same table the other way. "First-generation ports send 10FF for TNC and ST3E."
    fn word_of(self, quality: Quality, port: InputNumber) -> Option<Word> {
        let Profile::OptionII(placed) = self else {
            return None;
        };
        Some(match quality {
            TNC | ST3E if placed.first_generation(port) => FIRST_GENERATION_WORD,
            PRS => 0x04ff,
            STU => 0x08ff,
            ST2 => 0x0cff,
            TNC => 0x78ff,
            ST3E => 0x7cff,
            ST3 => 0x10ff,
            SIC => 0x22ff,
            ST4 => 0x28ff,
            PROV => 0x40ff,
            _ => NOT_TO_BE_USED_WORD,
        })
    }

    /// The table of codes; any other code is invalid.
    pub fn quality_of(self, code: Code) -> Quality {
        match self {
            Profile::OptionI => match code {
                0b0010 => PRC,
                0b0100 => SSU_A,
                0b1000 => SSU_B,
                0b1011 => SEC,
                0b1111 => DNU,
                _ => Quality::INVALID,
            },
            Profile::OptionII(_) => match code {
                0b0001 => PRS,
                0b0000 => STU,
                0b0111 => ST2,
                0b0100 => TNC,
                0b1101 => ST3E,
                0b1010 => ST3,
                0b1100 => SIC,
                0b1110 => PROV,
                0b1111 => DUS,
                _ => Quality::INVALID,
            },
        }
    }

    /// The same table the other way, for the qualities a clock can have. "A locked ST4 clock
    /// quality goes out as code 1111."
    pub fn code_of(self, quality: Quality, port: InputNumber) -> Code {
        match self {
            Profile::OptionI => match quality {
                PRC => 0b0010,
                SSU_A => 0b0100,
                SSU_B => 0b1000,
                SEC => 0b1011,
                _ => NOT_TO_BE_USED,
            },
            Profile::OptionII(placed) => match quality {
                TNC | ST3E if placed.first_generation(port) => FIRST_GENERATION,
                PRS => 0b0001,
                STU => 0b0000,
                ST2 => 0b0111,
                TNC => 0b0100,
                ST3E => 0b1101,
                ST3 => 0b1010,
                SIC => 0b1100,
                PROV => 0b1110,
                _ => NOT_TO_BE_USED,
            },
        }
    }

    /// Where a quality ranks, if it can be followed at all. PROV ranks strictly between the
    /// number it is placed just below and the next one.
    pub fn place(self, quality: Quality) -> Option<Place> {
        match self {
            Profile::OptionI => (PRC..=SEC).contains(&quality).then_some(2 * quality.0),
            Profile::OptionII(placed) => match quality {
                PROV if placed.prov == 0 => None,
                PROV => Some(2 * placed.prov + 1),
                _ => (PRS..=ST4).contains(&quality).then_some(2 * quality.0),
            },
        }
    }

    /// With mode on: "passed quality from 1 to the input's floor", and PROV "is usable if that
    /// number is smaller than the input's floor".
    pub fn within(self, quality: Quality, floor: Quality) -> bool {
        self.place(quality) <= self.place(floor) && self.place(quality).is_some()
    }

    /// What the clock tells where it isn't locked. L10: "Our clock is ST3".
    pub fn own_quality(self) -> Quality {
        match self {
            Profile::OptionI => SEC,
            Profile::OptionII(_) => ST3,
        }
    }

    /// "fresh value 4"; L10: "fresh value 6".
    pub fn fresh_floor(self) -> Quality {
        match self {
            Profile::OptionI => SEC,
            Profile::OptionII(_) => ST3,
        }
    }

    /// Floors run from 1 to this.
    pub fn last_floor(self) -> Quality {
        match self {
            Profile::OptionI => SEC,
            Profile::OptionII(_) => ST4,
        }
    }

    /// Fixed qualities run from 1 to this.
    pub fn last_fixed(self) -> Quality {
        match self {
            Profile::OptionI => DNU,
            Profile::OptionII(_) => DUS,
        }
    }
}

impl Placed {
    fn first_generation(self, port: InputNumber) -> bool {
        self.marks >> port.0 & 1 == 1
    }
}

/// START: what a log of option II starts with. L11: "02: no marks, PROV unplaced", unless it is
/// given.
#[derive(Clone, Copy, Debug)]
pub struct Start {
    option_two: Profile,
}

impl Start {
    pub const NOTHING: Start = Start {
        option_two: Profile::OptionII(Placed { prov: 0, marks: 0 }),
    };

    /// Nothing, or `2 PLACE MARKS`; `None` for a refused start.
    pub fn read(arguments: &[&str]) -> Result<Option<Start>, String> {
        let wrong = || format!("not a start: {}", arguments.join(" "));
        match arguments {
            [] => Ok(Some(Start::NOTHING)),
            ["2", place, marks] => {
                let place = decimal(place).ok_or_else(wrong)?;
                let marks = four_digits(marks).ok_or_else(wrong)?;
                let option_two = Profile::option_two(place, marks);
                Ok(option_two.map(|option_two| Start { option_two }))
            }
            _ => Err(wrong()),
        }
    }

    /// The profile that a log's byte chooses.
    pub fn profile(self, option: u8) -> Profile {
        match option {
            1 => Profile::OptionI,
            _ => self.option_two,
        }
    }
}

/// A number too large for its type is out of range as well.
pub fn decimal(digits: &str) -> Option<u64> {
    let right = !digits.is_empty() && digits.bytes().all(|digit| digit.is_ascii_digit());
    right.then(|| digits.parse().unwrap_or(u64::MAX))
}

pub fn four_digits(digits: &str) -> Option<u16> {
    let right = digits.len() == 4 && digits.bytes().all(|digit| digit.is_ascii_hexdigit());
    right
        .then(|| u16::from_str_radix(digits, 16).ok())
        .flatten()
}

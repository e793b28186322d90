//! Frames for the header check, with one or two octets wrong, sometimes in a way that cancels
//! out for whoever adds octets up, or with a length near a border. `Headers` makes logs of
//! them, for a few Ethernet inputs; sound ones come in between, so that a wrong one taken for
//! sound shows in the answers too. `Frames` makes the frames alone, one a line.

use crate::generate::{
    event_line, frame_line, random_octets, sound_frame, LogSource, Numbers, OPTION_ONE,
};
use crate::hex;
use crate::random::Random;
use crate::selector::Time;

const INPUTS: u8 = 3;

/// The octets that a number from 9 to 13 is about, counted from 1.
const GROUPS: [(usize, usize); 5] = [(1, 6), (13, 15), (16, 20), (21, 21), (25, 27)];

/// Lengths near the borders and near the end of the header.
const LENGTHS: [usize; 14] = [
    0, 1, 20, 24, 27, 28, 58, 59, 61, 62, 64, 1_512, 1_513, 1_514,
];

pub struct Headers {
    frames: FrameSource,
    now: Time,
    setup: Vec<(u8, u8, u16)>,
}

impl Headers {
    pub fn new(random: Random, numbers: &'static Numbers) -> Headers {
        let mut setup = Vec::new();
        for n in 0..INPUTS {
            setup.extend([(0x01, n, 0), (0x07, n, 0), (0x04, n, 1), (0x10, n, 1)]);
        }
        Headers {
            frames: FrameSource { random, numbers },
            now: 0,
            setup,
        }
    }
}

/// Makes one frame after another.
struct FrameSource {
    random: Random,
    numbers: &'static Numbers,
}

impl FrameSource {
    fn octet_of_a_group(&mut self) -> usize {
        let (first, last) = self.random.pick(&GROUPS);
        self.random.between(first as u64, last as u64) as usize
    }

    /// One octet, any of the first 29 or one that a number is about.
    fn change_one(&mut self, frame: &mut [u8]) {
        let place = if self.random.percent(30) {
            self.random.between(1, 29) as usize
        } else {
            self.octet_of_a_group()
        };
        frame[place - 1] = match self.random.below(4) {
            0 => self.random.next() as u8,
            1 => frame[place - 1].wrapping_add(1),
            _ => frame[place - 1] ^ 1 << self.random.below(8),
        };
    }

    /// Two octets of one group: the same bit of each, one up and one down, or exchanged.
    fn change_two_alike(&mut self, frame: &mut [u8]) {
        let (first, last) = self.random.pick(&GROUPS);
        let one = self.random.between(first as u64, last as u64) as usize - 1;
        let other = self.random.between(first as u64, last as u64) as usize - 1;
        match self.random.below(3) {
            0 => {
                let bit = 1 << self.random.below(8);
                frame[one] ^= bit;
                frame[other] ^= bit;
            }
            1 => {
                frame[one] = frame[one].wrapping_add(1);
                frame[other] = frame[other].wrapping_sub(1);
            }
            _ => frame.swap(one, other),
        }
    }

    fn next_frame(&mut self) -> Vec<u8> {
        let mut source = [self.random.pick(&[0, 0xff]); 6];
        if !self.random.one_in(20) {
            random_octets(&mut self.random, &mut source);
        }
        let code = self.random.pick(self.numbers.codes);
        let mut frame = [0; 1_514];
        frame[..60].copy_from_slice(&sound_frame(source, self.random.percent(50), code));
        match self.random.below(10) {
            0 | 1 => {}
            2..=4 => self.change_one(&mut frame),
            5 | 6 => {
                self.change_one(&mut frame);
                self.change_one(&mut frame);
            }
            7 | 8 => self.change_two_alike(&mut frame),
            _ => random_octets(&mut self.random, &mut frame[..28]),
        }
        if self.random.percent(10) {
            // What is ignored: reserved and unused bits, all from octet 29.
            frame[20] ^= self.random.below(16) as u8;
            random_octets(&mut self.random, &mut frame[21..24]);
            frame[27] ^= (self.random.below(16) as u8) << 4;
            random_octets(&mut self.random, &mut frame[28..60]);
        }
        let length = if self.random.percent(15) {
            self.random.pick(&LENGTHS)
        } else {
            60
        };
        frame[..length].to_vec()
    }
}

impl LogSource for Headers {
    fn next_line(&mut self, log: &mut Vec<u8>) {
        if let Some((kind, input, argument)) = self.setup.pop() {
            return event_line(log, kind, self.now, input, argument);
        }
        self.now += self.frames.random.below(40);
        if self.frames.random.one_in(30) {
            return event_line(log, 0x0f, self.now, 0, 0);
        }
        let frame = self.frames.next_frame();
        let input = self.frames.random.below(u64::from(INPUTS)) as u8;
        frame_line(log, self.now, input, 0, &frame);
    }
}

pub struct Frames {
    frames: FrameSource,
}

impl Frames {
    pub fn new(random: Random) -> Frames {
        Frames {
            frames: FrameSource {
                random,
                numbers: &OPTION_ONE,
            },
        }
    }

    /// Something that isn't an even number of lowercase digits, or a frame far too long.
    fn tear(&mut self, line: &mut Vec<u8>) {
        let random = &mut self.frames.random;
        if line.is_empty() {
            return line.push(random.pick(b"0aA \r"));
        }
        let place = random.below(line.len() as u64) as usize;
        match random.below(7) {
            0 => line[place].make_ascii_uppercase(),
            1 => drop(line.remove(place)),
            2 => line.insert(place, b'0'),
            3 => line.push(b'\r'),
            4 => line[place] = random.pick(b"g:/`@ -\0\xff"),
            5 => line.clear(),
            _ => {
                let octets = random.pick(&[1_515, 1_516, 2_000, 40_000]);
                line.resize(2 * octets, b'0');
            }
        }
    }
}

impl LogSource for Frames {
    fn next_line(&mut self, lines: &mut Vec<u8>) {
        let mut line = Vec::new();
        hex::write_octets(&self.frames.next_frame(), &mut line);
        if self.frames.random.one_in(25) {
            self.tear(&mut line);
        }
        lines.extend(line);
        lines.push(b'\n');
    }
}

//! "ESMC frame": reading and writing. Octets are counted from 1, as in document 01.

use crate::hex;
use crate::selector::Code;

/// "Lengths are without FCS: 60 to 1,514 octets"
pub const SHORTEST: usize = 60;
pub const LONGEST: usize = 1_514;

const DESTINATION: [u8; 6] = [0x01, 0x80, 0xc2, 0x00, 0x00, 0x02];
/// "13-14 88-09; 15 0A"
const OCTETS_13_TO_15: [u8; 3] = [0x88, 0x09, 0x0a];
/// "16-18 00-19-A7; 19-20 00-01"
const OCTETS_16_TO_20: [u8; 5] = [0x00, 0x19, 0xa7, 0x00, 0x01];
/// "25 type 01; 26-27 length 00-04"
const OCTETS_25_TO_27: [u8; 3] = [0x01, 0x00, 0x04];
const VERSION: u8 = 1;

/// What a sound frame tells. L2: "code, flag and the six address octets".
#[derive(Clone, Copy, PartialEq, Eq, Debug)]
pub struct Frame {
    /// The four bits as they stand.
    pub code: Code,
    pub event_flag: bool,
    pub source: [u8; 6],
}

/// What a frame given as lowercase hexadecimal digits, two an octet, tells, or the smallest
/// number of refusal that applies, 8 to 13. "Reserved and unused bits, and all from octet 29,
/// are ignored on reading". An octet has one way to be written, so the digits are compared
/// themselves.
pub fn read(digits: &[u8]) -> Result<Frame, u8> {
    if !(SHORTEST..=LONGEST).contains(&(digits.len() / 2)) {
        Err(8)
    } else if octets(digits, 1, 6) != b"0180c2000002" {
        Err(9)
    } else if octets(digits, 13, 15) != b"88090a" {
        Err(10)
    } else if octets(digits, 16, 20) != b"0019a70001" {
        Err(11)
    } else if octets(digits, 21, 21)[0] != b'1' {
        Err(12)
    } else if octets(digits, 25, 27) != b"010004" {
        Err(13)
    } else {
        Ok(Frame {
            code: hex::value(octets(digits, 28, 28)[1]),
            // "21 upper half version 1, bit 3 event flag"
            event_flag: hex::value(octets(digits, 21, 21)[1]) & 0b1000 != 0,
            source: std::array::from_fn(|n| octet(digits, 7 + n)),
        })
    }
}

/// The octet with this number, counted from 1.
fn octet(digits: &[u8], number: usize) -> u8 {
    let pair = octets(digits, number, number);
    hex::value(pair[0]) << 4 | hex::value(pair[1])
}

/// The digits of octets `first` to `last`, counted from 1.
fn octets(digits: &[u8], first: usize, last: usize) -> &[u8] {
    &digits[2 * (first - 1)..2 * last]
}

/// "We write 60 octets from a lent six-octet source address, an event flag and a code,
/// into the front of a lent buffer; octets after 60 are kept." Gives the number of
/// refusal, 0 if written: "writing checks 6 (code above 15), 19, 18", and these "leave
/// the buffer".
pub fn write(code: u8, event_flag: bool, source: &[u8], buffer: &mut [u8]) -> u8 {
    if code > 15 {
        return 6;
    }
    if source.len() != 6 {
        return 19;
    }
    if buffer.len() < SHORTEST {
        return 18;
    }
    let frame = &mut buffer[..SHORTEST];
    frame.fill(0);
    frame[0..6].copy_from_slice(&DESTINATION);
    frame[6..12].copy_from_slice(source);
    frame[12..15].copy_from_slice(&OCTETS_13_TO_15);
    frame[15..20].copy_from_slice(&OCTETS_16_TO_20);
    // "21 upper half version 1, bit 3 event flag, bits 2-0 reserved"
    frame[20] = VERSION << 4 | u8::from(event_flag) << 3;
    frame[24..27].copy_from_slice(&OCTETS_25_TO_27);
    frame[27] = code;
    0
}

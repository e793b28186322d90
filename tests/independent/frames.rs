//! The modes `read_frames` and `write-frames`: one call a line.

use std::io::{self, BufRead, Read, Write};

use crate::frame;
use crate::hex;
use crate::log;

fn wrong_line(line: &str) -> io::Error {
    io::Error::new(
        io::ErrorKind::InvalidData,
        format!("line not understood: {line}"),
    )
}

/// Each line is a frame in hexadecimal; answers `00 CODE FLAG ADDRESS` or the refusal, and
/// `01` for a line that isn't an even number of lowercase digits.
pub fn read_frames(mut input: impl Read, output: &mut impl Write) -> io::Result<()> {
    let mut frames = Vec::new();
    input.read_to_end(&mut frames)?;
    for digits in log::lines(&frames) {
        writeln!(output, "{}", frame_told(digits))?;
    }
    Ok(())
}

fn frame_told(digits: &[u8]) -> String {
    if digits.len() % 2 != 0 || !hex::all_digits(digits) {
        return "01".to_string();
    }
    match frame::read(digits) {
        Err(number) => format!("{number:02x}"),
        Ok(frame) => {
            let flag = u8::from(frame.event_flag);
            let address = hex_or_dash(&frame.source);
            format!("00 {:x} {flag} {address}", frame.code)
        }
    }
}

/// Each line is `CODE FLAG SOURCEHEX BUFFERHEX`, `-` for no octets; answers the number
/// (0 written) and the buffer afterwards.
pub fn write_frames(input: impl BufRead, output: &mut impl Write) -> io::Result<()> {
    for line in input.lines() {
        let line = line?;
        let (code, flag, source, mut buffer) =
            write_call(&line).ok_or_else(|| wrong_line(&line))?;
        let number = frame::write(code, flag, &source, &mut buffer);
        writeln!(output, "{number} {}", hex_or_dash(&buffer))?;
    }
    Ok(())
}

fn write_call(line: &str) -> Option<(u8, bool, Vec<u8>, Vec<u8>)> {
    let mut words = line.split(' ');
    let code = words.next()?.parse().ok()?;
    let flag = match words.next()? {
        "0" => false,
        "1" => true,
        _ => return None,
    };
    let source = octets_or_dash(words.next()?)?;
    let buffer = octets_or_dash(words.next()?)?;
    words
        .next()
        .is_none()
        .then_some((code, flag, source, buffer))
}

fn octets_or_dash(word: &str) -> Option<Vec<u8>> {
    match word {
        "-" => Some(Vec::new()),
        _ => hex::any_octets(word.as_bytes()),
    }
}

fn hex_or_dash(octets: &[u8]) -> String {
    if octets.is_empty() {
        return "-".to_string();
    }
    hex::digits(octets)
}

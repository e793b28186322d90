//! The modes of the independent program that take a log, in place of its main.rs: a wrong copy is
//! built in a quarter of the time. Nothing of the rules stands here.
//!
//! `several` takes many logs in one run, each after a line with its number of octets, each from a
//! fresh start: `log`, then a line for each of its lines with answer, outgoing codes and count.

mod frame;
mod hex;
mod line;
mod log;
mod replay;
mod selector;

use std::io::{self, BufWriter, Read, Write};

use line::Taken;
use log::LogReader;
use replay::Replay;
use selector::{InputNumber, Start};

const PORTS: u8 = 16;

fn wrong(error: impl Into<Box<dyn std::error::Error + Send + Sync>>) -> io::Error {
    io::Error::new(io::ErrorKind::InvalidInput, error)
}

fn main() -> io::Result<()> {
    let arguments: Vec<String> = std::env::args().skip(1).collect();
    let arguments: Vec<&str> = arguments.iter().map(String::as_str).collect();
    let (mode, start) = arguments.split_first().ok_or_else(|| wrong("no mode"))?;
    let mut output = BufWriter::new(io::stdout().lock());
    let Some(start) = Start::read(start).map_err(wrong)? else {
        return writeln!(output, "06");
    };
    if *mode == "several" {
        several(start, &mut output)?;
    } else {
        replayed(io::stdin().lock(), start, |replay, taken| {
            told(mode, replay, taken, &mut output)?;
            output.write_all(b"\n")
        })?;
    }
    output.flush()
}

/// One log from a fresh start, with `tell` after each line.
fn replayed(
    source: impl Read,
    start: Start,
    mut tell: impl FnMut(&Replay, Taken) -> io::Result<()>,
) -> io::Result<()> {
    let mut log = LogReader::new(source);
    let mut replay = Replay::fresh(start);
    while let Some(digits) = log.next_line()? {
        let taken = replay.take(digits);
        tell(&replay, taken)?;
    }
    Ok(())
}

/// What a mode tells of the line that was taken last.
fn told(mode: &str, replay: &Replay, taken: Taken, output: &mut impl Write) -> io::Result<()> {
    match mode {
        "replay" => output.write_all(&replay.answer_line(taken)[..12]),
        "outgoing" => {
            let mut codes = [0; PORTS as usize];
            for port in 0..PORTS {
                let code = replay.selector.outgoing_code(InputNumber(port));
                codes[usize::from(port)] = hex::digit(code);
            }
            output.write_all(&codes)
        }
        "counts" => write!(output, "{}", taken.due_moments),
        other => Err(wrong(other)),
    }
}

fn several(start: Start, output: &mut impl Write) -> io::Result<()> {
    let mut input = Vec::new();
    io::stdin().lock().read_to_end(&mut input)?;
    let mut rest = &input[..];
    while let Some(end) = rest.iter().position(|&byte| byte == b'\n') {
        let length: usize = std::str::from_utf8(&rest[..end]).map_err(wrong)?.parse().map_err(wrong)?;
        let (log, further) = rest[end + 1..].split_at_checked(length).ok_or_else(|| wrong("too short"))?;
        output.write_all(b"log\n")?;
        replayed(log, start, |replay, taken| {
            for (mode, after) in [("replay", " "), ("outgoing", " "), ("counts", "\n")] {
                told(mode, replay, taken, output)?;
                output.write_all(after.as_bytes())?;
            }
            Ok(())
        })?;
        rest = further;
    }
    Ok(())
}

//! L1's senders once more, slow on purpose: from the list of all accepted questions and of
//! all frames sent, counted anew each time. Shares no line with `heartbeat.rs`.

use crate::naive::{self, Naive};

struct Sent {
    port: u64,
    time: u64,
    code: u64,
}

/// `? PORT TIME LENGTH SOURCE`, the source in digits.
struct Asked<'a> {
    port: u64,
    time: u64,
    length: u64,
    source: &'a str,
}

fn number(text: &str) -> Option<u64> {
    let digits = !text.is_empty() && text.chars().all(|digit| "0123456789".contains(digit));
    // Longer numbers than u128 has are above 2^64 anyway, but for zeros in front.
    let value: u128 = text.trim_start_matches('0').parse().unwrap_or(0);
    let fits = text.trim_start_matches('0').len() <= 20 && value < 1 << 64;
    (digits && fits).then_some(value as u64)
}

fn asked(line: &str) -> Option<Asked<'_>> {
    let words: Vec<&str> = line.split(' ').collect();
    let &["?", port, time, length, source] = words.as_slice() else {
        return None;
    };
    let digits = source
        .chars()
        .all(|digit| "0123456789abcdef".contains(digit));
    let octets = (2..=64).contains(&source.len()) && source.len() % 2 == 0 && digits;
    if !octets && source != "-" {
        return None;
    }
    Some(Asked {
        port: number(port)?,
        time: number(time)?,
        length: number(length)?,
        source: if source == "-" { "" } else { source },
    })
}

#[derive(Default)]
struct Senders {
    /// Port and time of each accepted question.
    questions: Vec<(u64, u64)>,
    frames: Vec<Sent>,
}

impl Senders {
    fn refusals(&self, asked: &Asked) -> Vec<u64> {
        let last_question = self.questions.iter().rev().find(|one| one.0 == asked.port);
        let applies = [
            (3, asked.time >= 1 << 48),
            (4, last_question.is_some_and(|last| asked.time < last.1)),
            (5, asked.port > 15),
            (18, asked.length < 60),
            (19, asked.source.len() != 12),
        ];
        let applying = applies.into_iter().filter(|(_, does)| *does);
        applying.map(|(number, _)| number).collect()
    }

    /// Frames of a port that "carry times later than 1,000 ms before now".
    fn in_window(&self, port: u64, now: u64) -> usize {
        let later = |sent: &&Sent| sent.port == port && sent.time as i128 > now as i128 - 1_000;
        self.frames.iter().filter(later).count()
    }

    /// The event flag of the frame that is due, if one is.
    fn due(&self, port: u64, now: u64, code: u64) -> Option<bool> {
        let Some(last) = self.frames.iter().rev().find(|sent| sent.port == port) else {
            return Some(false);
        };
        if last.code != code {
            Some(true)
        } else if now - last.time >= 1_000 {
            Some(false)
        } else {
            None
        }
    }

    fn ask(&mut self, asked: &Asked, selector: &Naive) -> String {
        if let Some(number) = self.refusals(asked).into_iter().min() {
            return format!("{number:02x}");
        }
        let (port, now) = (asked.port, asked.time);
        let code = selector.code_out(port);
        let due = self.due(port, now, code);
        self.questions.push((port, now));
        let Some(event_flag) = due.filter(|_| self.in_window(port, now) < 10) else {
            return "-".to_string();
        };
        self.frames.push(Sent {
            port,
            time: now,
            code,
        });
        assert!(self.in_window(port, now) <= 10, "more than ten in a window");
        let octet_21 = if event_flag { "18" } else { "10" };
        let head = format!(
            "0180c2000002{}88090a0019a70001{octet_21}000000",
            asked.source
        );
        let frame = format!("{head}010004{code:02x}{}", "00".repeat(32));
        let told = naive::frame_told(frame.as_bytes());
        let reads_back = format!("00 {code:x} {} {}\n", u8::from(event_flag), asked.source);
        assert_eq!(told, reads_back, "a frame that doesn't read back");
        frame
    }
}

/// The output of the mode `heartbeat`.
pub fn heartbeat(start: &[&str], text: &[u8]) -> String {
    let Some(mut selector) = Naive::started(start) else {
        return "06\n".to_string();
    };
    let mut senders = Senders::default();
    let mut output = String::new();
    for line in naive::lines(text) {
        if line.first() != Some(&b'?') {
            let taken = selector.take(line);
            output += &selector.answer(taken);
            continue;
        }
        let asked = std::str::from_utf8(line).ok().and_then(asked);
        output += &asked.map_or("??".to_string(), |asked| senders.ask(&asked, &selector));
        output += "\n";
    }
    output
}

//! The verdict once more, slow on purpose: each millisecond by itself, by the words of the
//! definition and nothing else. For short times only.

use crate::selector::{Selector, Time};
use crate::verdict::{Judged, Question, Stream, Stretch, Telling, Value};

/// The longest end that is tried.
pub const LONGEST: Time = 12_000;

/// "what stands at t": what is told at t; where nothing is, what was told last before.
fn standing(shown: &[Telling], time: Time) -> Vec<Value> {
    let told = |telling: &&Telling| telling.time == time;
    let now: Vec<Value> = shown
        .iter()
        .filter(told)
        .map(|telling| telling.value)
        .collect();
    if !now.is_empty() {
        return now;
    }
    let before = shown.iter().rev().find(|telling| telling.time < time);
    before.map(|telling| telling.value).into_iter().collect()
}

/// "after some first part of it [...] the state's time at that point is not later than t; the next
/// event, if there is one, brings the state's time to t or later; and the value is the view of what
/// has happened at that point followed by a tick at t"
fn right(question: &Question, points: &[Selector], lane: usize, time: Time) -> Vec<Value> {
    let mut values = Vec::new();
    for (place, point) in points.iter().enumerate() {
        let next = points.get(place + 1);
        if point.time <= time && next.is_none_or(|next| next.time >= time) {
            let mut state = point.clone();
            state.tick(time);
            values.push(question.form.view(&state, lane));
        }
    }
    values
}

pub fn judge(question: &Question, stream: &Stream, lane: usize) -> Judged {
    let (shown, end) = (&stream.shown[lane], question.end);
    let first = shown
        .iter()
        .map(|telling| telling.time)
        .find(|time| *time <= end)?;
    let last = end + question.early;
    let right: Vec<Vec<Value>> = (0..=last)
        .map(|time| right(question, &stream.points, lane, time))
        .collect();
    let is_good = |time: Time, value: &Value| {
        let from = time.saturating_sub(question.late);
        (from..=time + question.early).any(|when| right[when as usize].contains(value))
    };
    let mut stretches: Vec<Stretch> = Vec::new();
    for time in first..=end {
        let standing = standing(shown, time);
        let Some(value) = standing.iter().find(|value| !is_good(time, value)) else {
            continue;
        };
        match stretches.last_mut() {
            Some(last) if last.to + 1 == time => last.to = time,
            _ => stretches.push(Stretch {
                from: time,
                to: time,
                value: *value,
            }),
        }
    }
    Some((first, stretches))
}

//! Tells each moment of a replay on standard error: `sequences/search` puts it into the independent
//! program. Nothing of the rules stands here.
//!
//! `due` or `line` opens a moment; then its time, each input that has changed, and the selector if it
//! has.

use std::cell::RefCell;

use crate::selector::Selector;

thread_local! {
    /// What was told last: of each input, then of the selector.
    static TOLD: RefCell<Vec<String>> = const { RefCell::new(Vec::new()) };
}

pub fn tell(moment: &str, selector: &Selector) {
    TOLD.with_borrow_mut(|told| {
        told.resize(selector.inputs.len() + 1, String::new());
        eprintln!("{moment}\ntime {}", selector.time);
        for (n, input) in selector.inputs.iter().enumerate() {
            let now = format!("input {n} {input:?} passed: {:?}", input.passed());
            tell_change(&mut told[n], now);
        }
        let now = format!(
            "selector mode: {:?}, switch: {:?}, selected: {:?}, state: {:?}, quality: {:?}, equals: {}, lowest: {:?}",
            selector.quality_mode,
            selector.switch,
            selector.selected,
            selector.clock_state,
            selector.clock_quality,
            selector.full_equals(),
            selector.lowest_equal(),
        );
        tell_change(&mut told[selector.inputs.len()], now);
    });
}

fn tell_change(told: &mut String, now: String) {
    if *told != now {
        eprintln!("{now}");
        *told = now;
    }
}

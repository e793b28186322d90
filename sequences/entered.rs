//! Tells on standard error which functions a replay enters and which events it meets, each once: the
//! tools put it into the independent program. Nothing of the rules stands here.

use std::cell::RefCell;
use std::collections::BTreeSet;

use crate::selector::Event;

thread_local! {
    static TOLD: RefCell<BTreeSet<String>> = const { RefCell::new(BTreeSet::new()) };
}

fn tell(line: String) {
    TOLD.with_borrow_mut(|told| {
        if !told.contains(&line) {
            eprintln!("{line}");
            told.insert(line);
        }
    });
}

pub fn function(name: &str) {
    tell(format!("function {name}"));
}

/// An event by the name of its case.
pub fn event(event: &Event) {
    let told = format!("{event:?}");
    let end = told.find('(').unwrap_or(told.len());
    tell(format!("event {}", &told[..end]));
}

//! `dumps list`: the events of a dump in words.

use oracle::list::event_words;

use crate::signals;

pub fn list(dump: &[u8]) -> String {
    let events = match signals::events(dump) {
        Err(fault) => return format!("refused {}\n", fault.number()),
        Ok(events) => events,
    };
    let line = |(index, event)| {
        let words = event_words(event);
        format!("event {index} at {}: {}\n", event.time, words.trim_end())
    };
    events.into_iter().enumerate().map(line).collect()
}

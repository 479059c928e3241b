//! Calls, maps and answers as text, the same in the list and in what is printed of a difference.

use crate::calls::{Act, Answer, Op, Request};
use crate::map::{Field, Map, FIELDS, SUMMARIES};

/// The call's name and numbers.
pub fn call(request: &Request) -> String {
    let Request { op, flag, x, y, .. } = request;
    let name = op.name();
    let (first, last) = request.ends();
    match op {
        Op::Slots(_, Act::Set) => format!("{name} {x} {y} {}", if *flag { "on" } else { "off" }),
        Op::Slots(_, Act::NextFree | Act::Get) => format!("{name} {x}"),
        Op::Slots(_, Act::Empty | Act::Used) => name,
        Op::PageUp | Op::Pages | Op::PageOffset | Op::Bit => format!("{name} {x}"),
        Op::Overlap => format!("{name} {x} {y} {first} {last}"),
        Op::Slots(..) | Op::Round(..) | Op::Mask => format!("{name} {x} {y}"),
    }
}

pub fn answer(answer: &Answer) -> String {
    match answer {
        Answer::Refused(number) => format!("refused {number}"),
        Answer::Done => "done".into(),
        Answer::Number(number) => number.to_string(),
        Answer::Truth(truth) => if *truth { "yes" } else { "no" }.into(),
        Answer::NotFound => "not found".into(),
        Answer::Missing(reason) => format!("none: {reason}"),
        Answer::Unreadable => "bytes that are no answer".into(),
    }
}

/// The words that are not 0, in hex, and the fields that are not those of the sound map.
pub fn map(map: &Map) -> String {
    let size = if map.is_third() { "third " } else { "" };
    let sound = Map::of(map.words.clone());
    size.to_string() + &parts(map, |i| map.words[i] != 0, &FIELDS, &sound, "-")
}

/// What the original changes: the words and the summaries that are others than before.
pub fn change(before: &Map, after: &Map) -> String {
    parts(after, |i| after.words[i] != before.words[i], &SUMMARIES, before, "same")
}

/// Equal words in a row share a part. Of these fields a value is told where that map has another.
fn parts(map: &Map, shown: impl Fn(usize) -> bool, fields: &[Field], than: &Map, nothing: &str) -> String {
    let words = &map.words;
    let mut parts = Vec::new();
    let mut i = 0;
    while i < words.len() {
        let mut next = i + 1;
        if shown(i) {
            while next < words.len() && shown(next) && words[next] == words[i] {
                next += 1;
            }
            let places = if next == i + 1 { i.to_string() } else { format!("{i}-{}", next - 1) };
            parts.push(format!("{places}:{:x}", words[i]));
        }
        i = next;
    }
    for &field in fields {
        let values = map[field].iter().zip(&than[field]).enumerate();
        let others = values.filter(|(_, (value, than))| value != than);
        parts.extend(others.map(|(i, (value, _))| {
            let place = if map[field].len() == 1 { String::new() } else { format!("{i}:") };
            match field {
                Field::Summary | Field::Over => format!("/{place}{value:x}"),
                Field::Full => format!("full/{place}{value:x}"),
                Field::Count => format!("count/{place}{value}"),
            }
        }));
    }
    if parts.is_empty() {
        nothing.into()
    } else {
        parts.join(" ")
    }
}

/// An answer and the map that it leaves.
pub fn outcome(before: &Map, said: &Answer, after: &Map) -> String {
    let said = answer(said);
    if after == before {
        format!("{said}, leaves the map as it came")
    } else {
        format!("{said}, leaves {}", map_and_slots(after))
    }
}

pub fn map_and_slots(given: &Map) -> String {
    format!("{}, slots {}", map(given), runs(given))
}

/// The used slots as runs, first and last.
fn runs(map: &Map) -> String {
    let mut runs = Vec::new();
    let mut slot = 0;
    while slot < map.capacity() {
        let end = (slot..map.capacity()).find(|&end| !map.is_used(end)).unwrap_or(map.capacity());
        if end > slot {
            runs.push(if end == slot + 1 { slot.to_string() } else { format!("{slot}..{}", end - 1) });
        }
        slot = end + 1;
    }
    if runs.is_empty() {
        "none".into()
    } else {
        runs.join(" ")
    }
}

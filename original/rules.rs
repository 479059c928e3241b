//! What ours must answer to a call: the paper's refusals, and else what the original says.

use crate::calls::{Act, Answer, Layout, Op, Outcome, Request, Way};
use crate::departures::{self, Met};
use crate::map::Map;

/// What comes of a comparison. NotFound: the original's `None` is this refusal. Missing: the original has no
/// answer. Departure: the place in the list of departures. Unlisted: a difference that must not be.
#[derive(Clone, Copy, PartialEq, Eq)]
pub enum Verdict {
    Same,
    NotFound(u64),
    Missing(&'static str),
    Departure(usize),
    Unlisted,
}

/// Compares what the original and ours made of a call.
pub fn judged(request: &Request, original: &Outcome, ours: &Outcome) -> Verdict {
    if due(request, original) != Some((ours.answer, &ours.map)) {
        return Verdict::Unlisted;
    }
    match (original.answer, ours.answer) {
        (Answer::Missing(reason), _) => Verdict::Missing(reason),
        (Answer::NotFound, Answer::Refused(number)) if none_is(request, number) => Verdict::NotFound(number),
        (_, Answer::Refused(_)) => {
            let place = departures::place(&Met { request, original, ours });
            place.map_or(Verdict::Unlisted, Verdict::Departure)
        }
        _ => Verdict::Same,
    }
}

/// What ours must answer and leave; a refusal leaves the map as it came. Nothing where neither the paper nor
/// the original says what.
pub fn due<'a>(request: &'a Request, original: &'a Outcome) -> Option<(Answer, &'a Map)> {
    let answer = match (refusal(request), original.answer) {
        (Some(number), _) => Answer::Refused(number),
        (None, Answer::NotFound) => Answer::Refused(7),
        (None, Answer::Missing(_)) => Answer::Number(by_the_paper(request)?),
        (None, answer) => return Some((answer, &original.map)),
    };
    Some((answer, &request.map))
}

/// The answer to an accepted call that the original has none to. There are two kinds: the mask of all 64 bits, for which
/// it shifts by 64, and a count of pages to which the last one belongs, for which it adds past the width.
fn by_the_paper(request: &Request) -> Option<u64> {
    match (request.op, request.x, request.y) {
        (Op::Mask, 0, 63) => Some(u64::MAX),
        (Op::Pages, x, _) if x > highest(64, 4096) => Some(1 << 52),
        _ => None,
    }
}

/// The original's `None` is no room, and to a take also too great an alignment or too many entries.
fn none_is(request: &Request, number: u64) -> bool {
    let take = matches!(request.op, Op::Slots(_, Act::Take));
    number == 7 || take && (number == 3 || number == 4)
}

/// The map that a series goes on with: what the original left, or the map before a call that is refused.
pub fn went_on<'a>(request: &'a Request, original: &'a Outcome) -> &'a Map {
    if refusal(request).is_some() {
        &request.map
    } else {
        &original.map
    }
}

/// The smallest refusal that applies, but for 7: whether there is room the original's search says.
pub fn refusal(request: &Request) -> Option<u64> {
    let (x, y) = (request.x, request.y);
    let (first, last) = request.ends();
    match request.op {
        Op::Slots(layout, act) => slots_refusal(layout, act, request),
        Op::Round(Way::Up, width) => first_of(&[(!y.is_power_of_two(), 8), (x > highest(width, y), 9)]),
        Op::Round(..) => first_of(&[(!y.is_power_of_two(), 8)]),
        Op::PageUp => first_of(&[(x > highest(64, 4096), 9)]),
        Op::Pages | Op::PageOffset => None,
        Op::Overlap => first_of(&[(x > y || first > last, 10)]),
        Op::Bit => first_of(&[(x > 63, 4)]),
        Op::Mask => first_of(&[(y > 63, 4), (y < x, 10)]),
    }
}

fn slots_refusal(layout: Layout, act: Act, request: &Request) -> Option<u64> {
    let (x, y) = (request.x, request.y);
    let capacity = layout.capacity();
    if layout != Layout::Word && !request.map.is_sound() {
        return Some(1);
    }
    match act {
        Act::Take => first_of(&[(x == 0, 2), (y >= layout.exponents(), 3), (x > capacity, 4)]),
        Act::NextFree | Act::Get => first_of(&[(x >= capacity, 4)]),
        Act::Empty | Act::Used => None,
        Act::Claim | Act::Free | Act::Set => {
            let past = x > capacity || y > capacity - x;
            first_of(&[(y == 0, 2), (past, 4)]).or_else(|| slots_fault(act, &request.map, x, x + y))
        }
    }
}

/// A free of a free slot, a claim of a used one.
fn slots_fault(act: Act, map: &Map, start: u64, end: u64) -> Option<u64> {
    match act {
        Act::Free => (start..end).any(|slot| !map.is_used(slot)).then_some(5),
        Act::Claim => (start..end).any(|slot| map.is_used(slot)).then_some(6),
        _ => None,
    }
}

fn first_of(faults: &[(bool, u64)]) -> Option<u64> {
    faults.iter().find(|(holds, _)| *holds).map(|(_, number)| *number)
}

/// The greatest multiple of a power of two below 2^width.
fn highest(width: u32, power: u64) -> u64 {
    let most = u64::MAX >> (64 - width);
    most - most % power.max(1)
}

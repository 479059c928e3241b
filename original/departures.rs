//! The listed departures (docs/DIFFERENCES.md): calls that the original answers and that are refused here.
//! Each has a rule of its own, which says what the original does there; its name has the refusal's number.

use crate::calls::{Act, Answer, Layout, Op, Outcome, Request, Way};
use crate::map::{Map, SUMMARIES};
use crate::source;

/// A call with what the original and ours made of it.
pub struct Met<'a> {
    pub request: &'a Request,
    pub original: &'a Outcome,
    pub ours: &'a Outcome,
}

type Rule = fn(&Met) -> bool;

/// The first so many are of maps, the others of the helpers.
pub const OF_MAPS: usize = 6;

pub const LIST: [(&str, Rule); 9] = [
    ("1: a summary, a mark of full words or a count at odds", departure_1_unsound),
    ("2: no entries, and nothing changes", departure_2_no_entries),
    ("2: a take of no entries finds no start", departure_2_no_start),
    ("4: set or free past the end is cut off, but for the word's", departure_4_past_the_end),
    ("4: next free past the end finds none, but for the word's", departure_4_next_free),
    ("5: a free clears what is free in part", departure_5_already_free),
    ("4: a mask past bit 63 is cut off", departure_4_mask),
    ("8: an alignment that is no power of two", departure_8_alignment),
    ("10: an interval whose end is below its start", departure_10_interval),
];

/// The place of the departure that this is, if it is one.
pub fn place(met: &Met) -> Option<usize> {
    LIST.iter().position(|(_, accepts)| accepts(met))
}

/// The original never asks whether a summary fits, and it has no marks of full words and no counts: it answers as on the
/// sound map of the same words and leaves the same words; only `empty` reads a summary, the one over all. A summary bit
/// stays as it came or is made to fit what is below it.
fn departure_1_unsound(met: &Met) -> bool {
    let Op::Slots(Layout::Tree | Layout::InPlace | Layout::Third, act) = met.request.op else { return false };
    let (before, after) = (&met.request.map, &met.original.map);
    let sound = source::carried_out(&Request { map: Map::of(before.words.clone()), ..met.request.clone() });
    let answer = if act == Act::Empty { Answer::Truth(before.summary() == 0) } else { sound.answer };
    let keeps_or_fits = |field| {
        let mut bits = before[field].iter().zip(after.pairs(field));
        bits.all(|(before, (after, fits))| (before ^ after) & (after ^ fits) == 0)
    };
    met.ours.answer == Answer::Refused(1)
        && !before.is_sound()
        && met.original.answer == answer
        && after.words == sound.map.words
        && SUMMARIES.into_iter().all(keeps_or_fits)
}

/// A call of no entries past the start of a word is accepted and changes nothing; so is one that starts past
/// the end, but for the word's. At the start of a word the original has no answer.
fn departure_2_no_entries(met: &Met) -> bool {
    let Op::Slots(layout, act) = met.request.op else { return false };
    let &Request { x, y, ref map, .. } = met.request;
    let accepted = match (act, met.original.answer) {
        (Act::Take, Answer::Number(start)) => {
            x == 0 && start % 64 != 0 && start % (1 << y) == 0 && !map.is_used(start)
        }
        (Act::Claim | Act::Free | Act::Set, Answer::Done) => {
            y == 0 && (x % 64 != 0 || x >= layout.capacity())
        }
        _ => false,
    };
    met.ours.answer == Answer::Refused(2) && accepted && met.original.map == *map
}

/// A take of no entries is answered `None` where the exponent is too great or every slot at a multiple of it
/// is used.
fn departure_2_no_start(met: &Met) -> bool {
    let Op::Slots(layout, Act::Take) = met.request.op else { return false };
    let &Request { x, y, ref map, .. } = met.request;
    let no_start = || (0..layout.capacity()).step_by(1 << y).all(|slot| map.is_used(slot));
    met.ours.answer == Answer::Refused(2)
        && x == 0
        && met.original.answer == Answer::NotFound
        && met.original.map == *map
        && (y >= layout.exponents() || no_start())
}

/// Set and free go as far as the last slot and do nothing past it, but for the word's.
fn departure_4_past_the_end(met: &Met) -> bool {
    let Op::Slots(layout, Act::Free | Act::Set) = met.request.op else { return false };
    let (&Request { x, y, flag, .. }, end) = (met.request, layout.capacity());
    met.ours.answer == Answer::Refused(4)
        && layout != Layout::Word
        && x.saturating_add(y) > end
        && met.original.answer == Answer::Done
        && met.original.map == painted(met.request, x.min(end), end, flag)
}

/// Next free is answered `None` past the last slot, but for the word's.
fn departure_4_next_free(met: &Met) -> bool {
    let Op::Slots(layout, Act::NextFree) = met.request.op else { return false };
    met.ours.answer == Answer::Refused(4)
        && layout != Layout::Word
        && met.request.x >= layout.capacity()
        && met.original.answer == Answer::NotFound
}

/// A mask whose end is above 63 has ones from its start to 63.
fn departure_4_mask(met: &Met) -> bool {
    let Request { op, x, y, .. } = *met.request;
    met.ours.answer == Answer::Refused(4)
        && op == Op::Mask
        && x <= 63
        && y > 63
        && met.original.answer == Answer::Number(u64::MAX << x)
}

/// A free clears its range although a slot of it is free already.
fn departure_5_already_free(met: &Met) -> bool {
    let Op::Slots(_, Act::Free) = met.request.op else { return false };
    let &Request { x, y, ref map, .. } = met.request;
    met.ours.answer == Answer::Refused(5)
        && (x..x + y).any(|slot| !map.is_used(slot))
        && met.original.answer == Answer::Done
        && met.original.map == painted(met.request, x, x + y, false)
}

/// Rounding to an alignment that is neither 0 nor a power of two masks with the alignment less 1.
fn departure_8_alignment(met: &Met) -> bool {
    let Request { op: Op::Round(way, _), x, y, .. } = *met.request else { return false };
    let low = y.wrapping_sub(1);
    let masked = match way {
        Way::Up => Answer::Number(x.wrapping_add(low) & !low),
        Way::Down => Answer::Number(x & !low),
        Way::Is => Answer::Truth(x & low == 0),
    };
    met.ours.answer == Answer::Refused(8) && y != 0 && !y.is_power_of_two() && met.original.answer == masked
}

/// Intervals are compared first end against second even where one of them has its second below its first.
fn departure_10_interval(met: &Met) -> bool {
    let Request { op, x, y, .. } = *met.request;
    let (first, last) = met.request.ends();
    met.ours.answer == Answer::Refused(10)
        && op == Op::Overlap
        && (x > y || first > last)
        && met.original.answer == Answer::Truth(x <= last && first <= y)
}

/// The call's map with this value from start up to, not including, end; the fields fit it, but for the word's.
fn painted(request: &Request, start: u64, end: u64, value: bool) -> Map {
    let mut map = request.map.clone();
    map.paint(start, end, value);
    match request.op {
        Op::Slots(Layout::Word, _) => map,
        _ => Map::of(map.words),
    }
}

//! The random calls: series of calls on a map that goes on, calls at the boundaries, and calls on unsound maps; the
//! helpers' come between them.

use crate::calls::{Act, Layout, Op, Request};
use crate::cases::Make;
use crate::dice::{self, Dice};
use crate::helpers;
use crate::map::{Map, OF_TREES, THIRD, TREE};

/// Goes on until enough calls are made, but for those of the third level.
pub fn all(seed: u64, make: Make) -> Option<()> {
    let mut dice = Dice::new(seed);
    loop {
        match dice.below(12) {
            0..=7 => any_series(&mut dice, make)?,
            8 => any_boundaries(&mut dice, make)?,
            9 => any_unsound(&mut dice, make)?,
            _ => helpers::some(&mut dice, make)?,
        }
    }
}

/// Those of the third level, until enough are made.
pub fn thirds(seed: u64, make: Make) -> Option<()> {
    let mut dice = Dice::new(seed);
    loop {
        match dice.below(10) {
            0..=7 => third_series(&mut dice, make)?,
            8 => boundaries(&mut dice, Layout::Third, make)?,
            _ => unsound(&mut dice, Layout::Third, make)?,
        }
    }
}

/// From this exponent on a third level has at most 256 starts. Each start's run is tried slot by slot, so its long runs are
/// mostly taken at these.
const FEW_STARTS: u64 = 6;

// ---- series

/// What the calls of a series have in common: whose they are, how long a run they ask for, and the exponents of their
/// takes, so many from the least on.
struct Style {
    layout: Layout,
    longest: u64,
    least: u64,
    exponents: u64,
}

impl Style {
    fn any(dice: &mut Dice) -> Style {
        let layout = dice.among(&[Layout::Tree, Layout::Tree, Layout::InPlace, Layout::Word]);
        let longest = if layout == Layout::Word {
            dice.among(&[1, 4, 16, 66])
        } else {
            dice.among(&[1, 3, 3, 12, 12, 30, 70, 150, 500, 1030])
        };
        Style { layout, longest, least: 0, exponents: dice.among(&[1, 1, 4, 11]) }
    }

    fn third(dice: &mut Dice) -> Style {
        let longest = dice.among(&[1, 3, 12, 70, 500, 1030, 4000, 16400]);
        let least = if longest > 70 && !dice.one_in(100) { FEW_STARTS } else { 0 };
        Style { layout: Layout::Third, longest, least, exponents: dice.among(&[1, 4, 15 - least]) }
    }

    /// At boundaries and on unsound maps: runs of some words, and every exponent.
    fn wide(layout: Layout) -> Style {
        Style { layout, longest: 70, least: 0, exponents: layout.exponents().max(10) + 1 }
    }

    /// In place there are take and free; every other call is the tree's.
    fn op(&self, act: Act) -> Op {
        match (self.layout, act) {
            (Layout::InPlace, Act::Take | Act::Free) => Op::Slots(Layout::InPlace, act),
            (Layout::InPlace, _) => Op::Slots(Layout::Tree, act),
            (layout, _) => Op::Slots(layout, act),
        }
    }

    fn call(&self, act: Act, x: u64, y: u64, map: &Map) -> Request {
        Request::new(self.op(act), x, y, map.clone())
    }
}

/// A series of calls, each on the map that the one before it left.
pub fn any_series(dice: &mut Dice, make: Make) -> Option<()> {
    let style = Style::any(dice);
    let mut map = dice::sound(dice, TREE);
    if style.layout == Layout::Word {
        OF_TREES.into_iter().for_each(|field| map[field] = vec![dice.number() as u16]);
    }
    series(dice, &style, map, make)
}

fn third_series(dice: &mut Dice, make: Make) -> Option<()> {
    let map = dice::sound(dice, THIRD);
    third_series_on(dice, map, make)
}

pub fn third_series_on(dice: &mut Dice, map: Map, make: Make) -> Option<()> {
    let style = Style::third(dice);
    series(dice, &style, map, make)
}

fn series(dice: &mut Dice, style: &Style, mut map: Map, make: Make) -> Option<()> {
    for _ in 0..1 + dice.below(100) {
        map = make(step(dice, style, &map))?;
    }
    Some(())
}

fn step(dice: &mut Dice, style: &Style, map: &Map) -> Request {
    match dice.below(20) {
        0..=6 => {
            let (n, exponent) = (1 + dice.below(style.longest), style.least + dice.below(style.exponents));
            style.call(Act::Take, n, exponent, map)
        }
        7..=12 => known_run(dice, style, map),
        13 | 14 => {
            let (start, n) = (slot(dice, style), 1 + dice.below(style.longest));
            Request { flag: dice.one_in(2), ..style.call(Act::Set, start, n, map) }
        }
        15 => style.call(Act::NextFree, slot(dice, style), 0, map),
        16 => style.call(Act::Get, slot(dice, style), 0, map),
        17 => style.call(dice.among(&[Act::Empty, Act::Used]), 0, 0, map),
        _ => at_boundary(dice, style, map),
    }
}

/// Frees what is used and claims what is free; at times the other way round, or one slot too many.
fn known_run(dice: &mut Dice, style: &Style, map: &Map) -> Request {
    let start = slot(dice, style);
    let used = map.is_used(start);
    let end = (start..style.layout.capacity()).find(|&slot| map.is_used(slot) != used);
    let most = end.unwrap_or(style.layout.capacity()) - start;
    let fault = dice.below(10);
    let n = match dice.below(3) {
        _ if fault == 0 => most + 1,
        0 => most,
        1 => 1 + dice.below(most),
        _ => 1 + dice.below(most.min(style.longest)),
    };
    let act = if used != (fault == 1) { Act::Free } else { Act::Claim };
    style.call(act, start, n, map)
}

/// Any slot, or as often one at most 2 from the end of a word, in a third level of a tree.
fn slot(dice: &mut Dice, style: &Style) -> u64 {
    let capacity = style.layout.capacity();
    let any = dice.below(capacity);
    let close = capacity.max(1024) / 16 * dice.below(17);
    if dice.one_in(2) {
        any
    } else {
        dice.near(close) % capacity
    }
}

// ---- boundaries

/// Calls at the boundaries, a few on each of some maps.
pub fn any_boundaries(dice: &mut Dice, make: Make) -> Option<()> {
    let layout = dice.among(&[Layout::Tree, Layout::InPlace, Layout::Word]);
    boundaries(dice, layout, make)
}

pub fn boundaries(dice: &mut Dice, layout: Layout, make: Make) -> Option<()> {
    let style = Style::wide(layout);
    for _ in 0..6 {
        let map = dice::sound(dice, layout.words());
        for _ in 0..8 {
            make(at_boundary(dice, &style, &map))?;
        }
    }
    Some(())
}

fn at_boundary(dice: &mut Dice, style: &Style, map: &Map) -> Request {
    let third = style.layout == Layout::Third;
    let start =
        if style.layout == Layout::Word && !dice.one_in(4) { dice.below(67) } else { edge(dice, third) };
    let n = match dice.below(3) {
        0 => dice.near(style.layout.capacity().wrapping_sub(start)),
        1 => dice.below(3),
        _ => edge(dice, third),
    };
    match dice.below(8) {
        0 | 1 => style.call(Act::Take, n, exponent(dice, third), map),
        2 => style.call(Act::Claim, start, n, map),
        3 | 4 => style.call(Act::Free, start, n, map),
        5 => Request { flag: dice.one_in(2), ..style.call(Act::Set, start, n, map) },
        6 => style.call(Act::NextFree, start, 0, map),
        _ => style.call(Act::Get, start, 0, map),
    }
}

/// A number at a boundary of slots, of maps or of widths; for a third level sixteen times as far apart.
fn edge(dice: &mut Dice, third: bool) -> u64 {
    let (part, whole) = if third { (1024, 16384) } else { (64, 1024) };
    let boundary = match dice.below(8) {
        0 => 0,
        1..=3 => part * dice.below(18),
        4 | 5 => dice.among(&[part, whole]),
        6 => whole * dice.below(5),
        _ => {
            dice.among(&[1 << 31, 1 << 32, 1 << 63, u64::MAX - (whole - 1), u64::MAX - (part - 1), u64::MAX])
        }
    };
    dice.near(boundary)
}

fn exponent(dice: &mut Dice, third: bool) -> u64 {
    if third && !dice.one_in(16) {
        return FEW_STARTS + dice.below(16 - FEW_STARTS);
    }
    match dice.below(8) {
        0..=5 => dice.below(12),
        6 => dice.among(&[63, 64, 255, 1 << 32, u64::MAX]),
        _ => 0,
    }
}

// ---- unsound maps

/// Calls of each kind on unsound maps.
pub fn any_unsound(dice: &mut Dice, make: Make) -> Option<()> {
    let layout = dice.among(&[Layout::Tree, Layout::InPlace]);
    unsound(dice, layout, make)
}

pub fn unsound(dice: &mut Dice, layout: Layout, make: Make) -> Option<()> {
    let style = Style::wide(layout);
    for _ in 0..4 {
        let map = dice::unsound(dice, layout.words());
        for _ in 0..8 {
            make(step(dice, &style, &map))?;
        }
        make(style.call(Act::Empty, 0, 0, &map))?;
    }
    Some(())
}

//! Random calls of the helpers: rounding, pages, overlap, one bit and masks.

use crate::calls::{Op, Request, Way};
use crate::cases::Make;
use crate::dice::{self, Dice};
use crate::map::{Map, TREE};

/// A few calls, on maps that must be handed back as they came.
pub fn some(dice: &mut Dice, make: Make) -> Option<()> {
    for _ in 0..4 {
        let map = if dice.one_in(2) { dice::unsound(dice, TREE) } else { Map::empty(TREE) };
        for _ in 0..8 {
            make(helper(dice, map.clone()))?;
        }
    }
    Some(())
}

fn helper(dice: &mut Dice, map: Map) -> Request {
    match dice.below(12) {
        0..=5 => rounding(dice, map),
        6 => Request::new(dice.among(&[Op::PageUp, Op::Pages, Op::PageOffset]), value(dice), 0, map),
        7 => Request::new(dice.among(&[Op::PageUp, Op::Pages]), u64::MAX - dice.below(10000), 0, map),
        8 => Request::new(Op::Bit, place(dice), 0, map),
        9 | 10 => Request::new(Op::Mask, place(dice), place(dice), map),
        _ => overlap(dice, map),
    }
}

fn rounding(dice: &mut Dice, map: Map) -> Request {
    let width = dice.among(&[64, 32]);
    let most = u64::MAX >> (64 - width);
    let alignment = most
        & match dice.below(8) {
            0 => dice.below(70),
            1 => value(dice),
            2 => near_power(dice),
            _ => 1 << dice.below(width.into()),
        };
    let multiple = dice.number() & alignment.wrapping_neg();
    let number = most
        & match dice.below(3) {
            0 => dice.near(multiple),
            1 => dice.near(most.wrapping_sub(alignment)),
            _ => value(dice),
        };
    Request::new(
        Op::Round(dice.among(&[Way::Up, Way::Up, Way::Down, Way::Is]), width),
        number,
        alignment,
        map,
    )
}

fn overlap(dice: &mut Dice, mut map: Map) -> Request {
    let below = dice.among(&[3, 6, 100]);
    let mut end = || if dice.one_in(8) { value(dice) } else { dice.below(below) };
    let ends = [end(), end(), end(), end()];
    let turned = |a: u64, b: u64, turn: bool| if turn { (a.max(b), a.min(b)) } else { (a.min(b), a.max(b)) };
    let (x, y) = turned(ends[0], ends[1], dice.one_in(5));
    (map.words[0], map.words[1]) = turned(ends[2], ends[3], dice.one_in(5));
    Request::new(Op::Overlap, x, y, map)
}

fn near_power(dice: &mut Dice) -> u64 {
    let power = 1 << dice.below(64);
    dice.near(power)
}

/// Any number, of any length in bits, or one close to a power of two.
fn value(dice: &mut Dice) -> u64 {
    match dice.below(3) {
        0 => dice.number() >> dice.below(64),
        1 => near_power(dice),
        _ => dice.near(0),
    }
}

/// A place of a bit, mostly in the word.
fn place(dice: &mut Dice) -> u64 {
    if dice.one_in(16) {
        value(dice)
    } else {
        dice.below(70)
    }
}

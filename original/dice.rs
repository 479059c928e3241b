//! Random numbers, the same for the same seed, and random maps.

use crate::map::{Field, Map, FIELDS, OF_TREES, THIRD};

pub struct Dice(u64);

impl Dice {
    pub fn new(seed: u64) -> Dice {
        Dice(seed)
    }

    /// Any number of 64 bits (the mixing of SplitMix64).
    pub fn number(&mut self) -> u64 {
        self.0 = self.0.wrapping_add(0x9e37_79b9_7f4a_7c15);
        let mixed = (self.0 ^ (self.0 >> 30)).wrapping_mul(0xbf58_476d_1ce4_e5b9);
        let mixed = (mixed ^ (mixed >> 27)).wrapping_mul(0x94d0_49bb_1331_11eb);
        mixed ^ (mixed >> 31)
    }

    pub fn below(&mut self, n: u64) -> u64 {
        ((u128::from(self.number()) * u128::from(n)) >> 64) as u64
    }

    pub fn among<T: Copy>(&mut self, choices: &[T]) -> T {
        choices[self.below(choices.len() as u64) as usize]
    }

    pub fn one_in(&mut self, n: u64) -> bool {
        self.below(n) == 0
    }

    /// A number at most 2 away from this one; it wraps at both ends.
    pub fn near(&mut self, number: u64) -> u64 {
        number.wrapping_add(self.below(5)).wrapping_sub(2)
    }
}

/// A sound map of so many words: empty, full, of single slots or of runs, thin or dense; a third level also with a few
/// runs in all.
pub fn sound(dice: &mut Dice, words: usize) -> Map {
    match dice.below(if words == THIRD { 11 } else { 8 }) {
        0 => Map::empty(words),
        1 => Map::full(words),
        2 | 3 if words == THIRD => Map::of(third_slots(dice)),
        2 | 3 => Map::of(single_slots(dice, words)),
        4..=6 => runs(dice, words),
        7 => few_runs(dice, Map::full(words), false),
        _ => few_runs(dice, Map::empty(words), true),
    }
}

/// A sound map with another value of a field, at times of two.
pub fn unsound(dice: &mut Dice, words: usize) -> Map {
    let mut map = sound(dice, words);
    for _ in 0..dice.among(&[1, 1, 1, 2]) {
        spoil(dice, &mut map);
    }
    while map.is_sound() {
        spoil(dice, &mut map);
    }
    map
}

/// Another value of a field at one place, at times that of another tree in exchange; now and then it is the one that was
/// there.
fn spoil(dice: &mut Dice, map: &mut Map) {
    let fields = if map.is_third() { &FIELDS[..] } else { &OF_TREES[..] };
    let field = dice.among(fields);
    let places = map[field].len();
    let any = dice.below(places as u64) as usize;
    let place = dice.among(&[0, any, places - 1]);
    let value = map[field][place];
    match field {
        _ if dice.one_in(8) => map[field].swap(place, any),
        Field::Count => map[field][place] = other_count(dice, value),
        _ => map[field][place] = other_bits(dice, value),
    }
}

/// Some bits turned, one, a few or all, or one moved to a place beside it.
fn other_bits(dice: &mut Dice, bits: u16) -> u16 {
    let edges: Vec<u32> = (0..15).filter(|i| matches!(bits >> i & 0b11, 0b01 | 0b10)).collect();
    match dice.below(8) {
        0..=2 if !edges.is_empty() => bits ^ 0b11 << dice.among(&edges),
        0..=5 => bits ^ 1 << dice.below(16),
        6 => bits ^ dice.number() as u16,
        _ => !bits,
    }
}

/// One more, one less, the least, the greatest or any.
fn other_count(dice: &mut Dice, count: u16) -> u16 {
    match dice.below(6) {
        0 => count.wrapping_add(1),
        1 => count.wrapping_sub(1),
        2 => 0,
        3 => u16::MAX,
        4 => count ^ 1 << dice.below(16),
        _ => dice.number() as u16,
    }
}

/// Each slot is used by chance, the same chance for all.
fn single_slots(dice: &mut Dice, words: usize) -> Vec<u64> {
    let (halvings, dense) = (dice.below(5), dice.one_in(2));
    let word = |_| {
        let thin = (0..halvings).fold(dice.number(), |word, _| word & dice.number());
        if dense {
            !thin
        } else {
            thin
        }
    };
    (0..words).map(word).collect()
}

/// Single slots in all the words of a third level, or mostly in a few in a row, with each other slot used or none.
fn third_slots(dice: &mut Dice) -> Vec<u64> {
    let mut words = vec![if dice.one_in(2) { u64::MAX } else { 0 }; THIRD];
    let some = if dice.one_in(12) { THIRD } else { 1 + dice.below(40) as usize };
    let first = dice.below((THIRD - some + 1) as u64) as usize;
    words[first..first + some].copy_from_slice(&single_slots(dice, some));
    words
}

/// Used and free runs by turns, each up to a length.
fn runs(dice: &mut Dice, words: usize) -> Map {
    let lengths: &[u64] = if words == THIRD { &[30, 130, 500, 2000, 6000] } else { &[1, 4, 30, 130, 500] };
    let (longest_used, longest_free) = (dice.among(lengths), dice.among(lengths));
    let mut map = Map::empty(words);
    let mut slot = dice.below(longest_free + 1);
    while slot < map.capacity() {
        let end = map.capacity().min(slot + 1 + dice.below(longest_used));
        map.paint(slot, end, true);
        slot = end + 1 + dice.below(longest_free);
    }
    Map::of(map.words)
}

/// The map but for a few runs of this value.
fn few_runs(dice: &mut Dice, mut map: Map, value: bool) -> Map {
    let lengths: &[u64] = if map.words.len() == THIRD { &[1, 3, 64, 1100, 5000] } else { &[1, 3, 64, 200] };
    for _ in 0..1 + dice.below(6) {
        let start = dice.below(map.capacity());
        let longest = dice.among(lengths);
        map.paint(start, map.capacity().min(start + 1 + dice.below(longest)), value);
    }
    Map::of(map.words)
}

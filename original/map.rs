//! A map as it is handed to a call and as it is left.

use std::ops::{Index, IndexMut};

/// The words of a tree, and those of a third level.
pub const TREE: usize = 16;
pub const THIRD: usize = 256;

/// What is stored beside the words. Over is the summary over a third level's trees; a tree has none. The original has the
/// summaries alone.
#[derive(Clone, Copy, PartialEq, Eq, PartialOrd, Ord)]
pub enum Field {
    Summary,
    Over,
    Full,
    Count,
}

/// All of them; each comes after those that it is made of.
pub const FIELDS: [Field; 4] = [Field::Summary, Field::Over, Field::Full, Field::Count];

/// Those of each tree, in the order of their bytes.
pub const OF_TREES: [Field; 3] = [Field::Summary, Field::Full, Field::Count];

/// Those that the original has.
pub const SUMMARIES: [Field; 2] = [Field::Summary, Field::Over];

/// Words of 64 slots and their fields, sound or not: `map[field]` has one for each tree, and of Over one for a third level.
#[derive(Clone, PartialEq, Eq)]
pub struct Map {
    pub words: Vec<u64>,
    stored: [Vec<u16>; FIELDS.len()],
}

impl Index<Field> for Map {
    type Output = Vec<u16>;

    fn index(&self, field: Field) -> &Vec<u16> {
        &self.stored[field as usize]
    }
}

impl IndexMut<Field> for Map {
    fn index_mut(&mut self, field: Field) -> &mut Vec<u16> {
        &mut self.stored[field as usize]
    }
}

impl Map {
    /// No slot used, in so many words.
    pub fn empty(words: usize) -> Map {
        Map::of(vec![0; words])
    }

    /// Each slot used, in so many words.
    pub fn full(words: usize) -> Map {
        Map::of(vec![u64::MAX; words])
    }

    /// The sound map of these words.
    pub fn of(words: Vec<u64>) -> Map {
        let mut map = Map { words, stored: Default::default() };
        for field in FIELDS {
            map[field] = map.fitting(field);
        }
        map
    }

    /// The sound map of so many words of which these are not 0.
    pub fn only(words: usize, given: &[(usize, u64)]) -> Map {
        let mut all = vec![0; words];
        given.iter().for_each(|&(place, word)| all[place] = word);
        Map::of(all)
    }

    /// The sound tree whose first word is this one, and the others 0.
    pub fn of_word(word: u64) -> Map {
        Map::only(TREE, &[(0, word)])
    }

    /// The map with other values of a field.
    pub fn with(mut self, field: Field, values: Vec<u16>) -> Map {
        self[field] = values;
        self
    }

    /// The map with another value of a field at one place.
    pub fn with_one(mut self, field: Field, place: usize, value: u16) -> Map {
        self[field][place] = value;
        self
    }

    /// The map with these bits of a field turned at one place.
    pub fn turned(self, field: Field, place: usize, bits: u16) -> Map {
        let value = self[field][place] ^ bits;
        self.with_one(field, place, value)
    }

    pub fn capacity(&self) -> u64 {
        64 * self.words.len() as u64
    }

    pub fn is_third(&self) -> bool {
        self.words.len() == THIRD
    }

    /// How many trees it has; a tree is one.
    pub fn trees(&self) -> usize {
        self.words.len() / 16
    }

    /// The summary over all of the map.
    pub fn summary(&self) -> u16 {
        self[if self.is_third() { Field::Over } else { Field::Summary }][0]
    }

    /// The values of a field that fit: of each tree as its words are, and over the trees as their summaries are.
    pub fn fitting(&self, field: Field) -> Vec<u16> {
        match field {
            Field::Summary => marks(&self.words, |word| *word != 0),
            Field::Over if self.is_third() => marks(&self[Field::Summary], |summary| *summary != 0),
            Field::Over => Vec::new(),
            Field::Full => marks(&self.words, |word| *word == u64::MAX),
            Field::Count => self.words.chunks(16).map(used).collect(),
        }
    }

    /// Each value of a field with the one that fits.
    pub fn pairs(&self, field: Field) -> impl Iterator<Item = (u16, u16)> + '_ {
        self[field].iter().copied().zip(self.fitting(field))
    }

    pub fn is_sound(&self) -> bool {
        FIELDS.into_iter().all(|field| self.pairs(field).all(|(value, fits)| value == fits))
    }

    pub fn is_used(&self, slot: u64) -> bool {
        self.words[slot as usize / 64] >> (slot % 64) & 1 == 1
    }

    /// Gives the slots from start up to, not including, end this value, one by one, and leaves the fields.
    pub fn paint(&mut self, start: u64, end: u64, value: bool) {
        for slot in start..end {
            let bit = 1 << (slot % 64);
            let word = &mut self.words[slot as usize / 64];
            *word = if value { *word | bit } else { *word & !bit };
        }
    }
}

/// A mark for each sixteen of these: bit i is 1 exactly if the one at i passes the test.
fn marks<T>(below: &[T], test: impl Fn(&T) -> bool) -> Vec<u16> {
    let mark = |part: &[T]| part.iter().enumerate().map(|(i, one)| u16::from(test(one)) << i).sum();
    below.chunks(16).map(mark).collect()
}

/// How many slots of these words are used.
fn used(words: &[u64]) -> u16 {
    words.iter().map(|word| word.count_ones() as u16).sum()
}

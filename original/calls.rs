//! A call: its name, its numbers and its map; what is answered; and the bytes in which the program
//! `compared_calls` reads the one and writes the other.

use crate::map::{Field, Map, OF_TREES, THIRD, TREE};

/// The bytes of a request, and of an answer, in front of the words, or of the fields of a third level's trees.
const HEAD: usize = 24;

/// A word map is the first word of a tree.
#[derive(Clone, Copy, PartialEq, Eq)]
pub enum Layout {
    Tree,
    Word,
    InPlace,
    Third,
}

impl Layout {
    pub fn capacity(self) -> u64 {
        match self {
            Layout::Word => 64,
            Layout::Tree | Layout::InPlace => 1024,
            Layout::Third => 16384,
        }
    }

    /// The least exponent that is too great for a take.
    pub fn exponents(self) -> u64 {
        match self {
            Layout::Word => 6,
            Layout::Tree | Layout::InPlace => 10,
            Layout::Third => 14,
        }
    }

    /// How many words its maps have.
    pub fn words(self) -> usize {
        if self == Layout::Third {
            THIRD
        } else {
            TREE
        }
    }

    fn name(self) -> &'static str {
        match self {
            Layout::Tree => "tree",
            Layout::Word => "word",
            Layout::InPlace => "in_place",
            Layout::Third => "third",
        }
    }
}

#[derive(Clone, Copy, PartialEq, Eq)]
pub enum Act {
    Take = 1,
    Claim,
    Free,
    Set,
    NextFree,
    Get,
    Empty,
    Used,
}

impl Act {
    fn name(self) -> &'static str {
        match self {
            Act::Take => "take",
            Act::Claim => "claim",
            Act::Free => "free",
            Act::Set => "set",
            Act::NextFree => "next_free",
            Act::Get => "get",
            Act::Empty => "empty",
            Act::Used => "used",
        }
    }
}

#[derive(Clone, Copy, PartialEq, Eq)]
pub enum Way {
    Up,
    Down,
    Is,
}

/// A call's name. Rounding is at 64 or at 32 bits.
#[derive(Clone, Copy, PartialEq, Eq)]
pub enum Op {
    Slots(Layout, Act),
    Round(Way, u32),
    PageUp,
    Pages,
    PageOffset,
    Overlap,
    Bit,
    Mask,
}

impl Op {
    /// Every call that is compared.
    pub fn all() -> Vec<Op> {
        let acts =
            [Act::Take, Act::Claim, Act::Free, Act::Set, Act::NextFree, Act::Get, Act::Empty, Act::Used];
        let maps = [Layout::Tree, Layout::Word, Layout::Third];
        let maps = maps.into_iter().flat_map(|map| acts.map(|act| Op::Slots(map, act)));
        let in_place = [Act::Take, Act::Free].map(|act| Op::Slots(Layout::InPlace, act));
        let round = [64, 32]
            .into_iter()
            .flat_map(|width| [Way::Up, Way::Down, Way::Is].map(|way| Op::Round(way, width)));
        let others = [Op::PageUp, Op::Pages, Op::PageOffset, Op::Overlap, Op::Bit, Op::Mask];
        maps.chain(in_place).chain(round).chain(others).collect()
    }

    /// The number by which a request names the call.
    pub fn code(self) -> u8 {
        match self {
            Op::Slots(Layout::Tree, act) => act as u8,
            Op::Slots(Layout::Word, act) => 16 + act as u8,
            Op::Slots(Layout::InPlace, act) => 32 + act as u8,
            Op::Slots(Layout::Third, act) => 64 + act as u8,
            Op::Round(way, 64) => 49 + way as u8,
            Op::Round(way, _) => 52 + way as u8,
            Op::PageUp => 55,
            Op::Pages => 56,
            Op::PageOffset => 57,
            Op::Overlap => 58,
            Op::Bit => 59,
            Op::Mask => 60,
        }
    }

    pub fn name(self) -> String {
        match self {
            Op::Slots(layout, act) => format!("{} {}", layout.name(), act.name()),
            Op::Round(Way::Up, width) => format!("align_up_{width}"),
            Op::Round(Way::Down, width) => format!("align_down_{width}"),
            Op::Round(Way::Is, width) => format!("is_aligned_{width}"),
            Op::PageUp => "page_align_up".into(),
            Op::Pages => "round_to_pages".into(),
            Op::PageOffset => "page_offset".into(),
            Op::Overlap => "overlap".into(),
            Op::Bit => "bit".into(),
            Op::Mask => "mask".into(),
        }
    }
}

/// A call and the map that it is made on. The numbers are the call's, in its order; flag is the value of set.
#[derive(Clone, PartialEq, Eq)]
pub struct Request {
    pub op: Op,
    pub flag: bool,
    pub x: u64,
    pub y: u64,
    pub map: Map,
}

impl Request {
    pub fn new(op: Op, x: u64, y: u64, map: Map) -> Request {
        Request { op, flag: false, x, y, map }
    }

    pub fn set(layout: Layout, start: u64, n: u64, value: bool, map: Map) -> Request {
        Request { flag: value, ..Request::new(Op::Slots(layout, Act::Set), start, n, map) }
    }

    /// The overlap of x..y and first..last, which stand in the map's first two words.
    pub fn overlap(x: u64, y: u64, first: u64, last: u64) -> Request {
        let mut map = Map::empty(TREE);
        map.words[0] = first;
        map.words[1] = last;
        Request::new(Op::Overlap, x, y, map)
    }

    /// The two ends that an overlap has in its map.
    pub fn ends(&self) -> (u64, u64) {
        (self.map.words[0], self.map.words[1])
    }

    /// How many bytes it has, and its answer.
    pub fn size(&self) -> usize {
        let trees = if self.map.is_third() { self.map.trees() } else { 0 };
        HEAD + 8 * (trees + self.map.words.len())
    }

    /// Adds its bytes to others.
    pub fn put(&self, bytes: &mut Vec<u8>) {
        let map = &self.map;
        // the fields of a tree as one number, the summary lowest
        let joined =
            |tree| (0..).zip(OF_TREES).map(|(i, field)| u64::from(map[field][tree]) << (16 * i)).sum();
        let trees: Vec<u64> = (0..map.trees()).map(joined).collect();
        let (own, trees) =
            if map.is_third() { (map.summary().into(), &trees[..]) } else { (trees[0], &[][..]) };
        bytes.extend([self.op.code(), self.flag as u8]);
        bytes.extend(&own.to_le_bytes()[..6]);
        for number in [self.x, self.y].iter().chain(trees).chain(&map.words) {
            bytes.extend(number.to_le_bytes());
        }
    }
}

/// What a call says. Refused is ours alone; the original has NotFound, its `None`, and Missing, with the
/// reason, where it has no answer; Unreadable are bytes that are no answer.
#[derive(Clone, Copy, PartialEq, Eq)]
pub enum Answer {
    Refused(u64),
    Done,
    Number(u64),
    Truth(bool),
    NotFound,
    Missing(&'static str),
    Unreadable,
}

/// What a call says and the map that it leaves.
#[derive(Clone, PartialEq, Eq)]
pub struct Outcome {
    pub answer: Answer,
    pub map: Map,
}

impl Outcome {
    /// Reads an answer of `compared_calls`; every byte that has no use is 0.
    pub fn read(bytes: &[u8]) -> Outcome {
        let number = |at: usize| u64::from_le_bytes(bytes[at..at + 8].try_into().unwrap());
        let answer = match (bytes[0], number(8)) {
            (0, refusal) => Answer::Refused(refusal),
            (1, 0) => Answer::Done,
            (2, value) => Answer::Number(value),
            (3, 0) => Answer::Truth(false),
            (4, 0) => Answer::Truth(true),
            _ => Answer::Unreadable,
        };
        let mut words: Vec<u64> = (HEAD..bytes.len()).step_by(8).map(number).collect();
        let own = vec![number(0) >> 16];
        let (trees, over) =
            if words.len() > TREE { (words.drain(..TREE).collect(), own) } else { (own, Vec::new()) };
        let part = |joined: &[u64], i| joined.iter().map(|fields| (fields >> (16 * i)) as u16).collect();
        let map = Map::of(words).with(Field::Over, part(&over, 0));
        let map = (0..).zip(OF_TREES).fold(map, |map, (i, field)| map.with(field, part(&trees, i)));
        let wide = trees.iter().any(|fields| fields >> 48 != 0) || over.iter().any(|over| over >> 16 != 0);
        let unused = bytes[1] != 0 || number(16) != 0 || wide;
        Outcome { answer: if unused { Answer::Unreadable } else { answer }, map }
    }
}

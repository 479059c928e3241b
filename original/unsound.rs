//! Unsound maps: of which kind one is, which kinds a run has to see, and maps of each.

use crate::calls::Layout;
use crate::cases::TOP;
use crate::map::{Field, Map, FIELDS, OF_TREES, THIRD};

/// What is wrong with a value: single bits or others, a count by one or by more.
#[derive(Clone, Copy, PartialEq, Eq, PartialOrd, Ord)]
pub enum Fault {
    Missing,
    TooMany,
    Neighbour,
    Bits,
    High,
    Low,
    Zero,
    Most,
    Number,
}

/// Whose value it is: one of a third level's trees, or all there is.
#[derive(Clone, Copy, PartialEq, Eq, PartialOrd, Ord)]
pub enum Place {
    Whole,
    First,
    Middle,
    Last,
}

/// A map has one value that is not the sound map's, or several: counts alone whose sum is right, or any.
#[derive(Clone, Copy, PartialEq, Eq, PartialOrd, Ord)]
pub enum Kind {
    One(Field, Fault, Place),
    Sum,
    Several,
}

/// What is wrong with a tree, of which every call has to see each.
const DUE: [(Field, Fault); 9] = [
    (Field::Summary, Fault::Missing),
    (Field::Summary, Fault::TooMany),
    (Field::Full, Fault::Missing),
    (Field::Full, Fault::TooMany),
    (Field::Full, Fault::Neighbour),
    (Field::Count, Fault::High),
    (Field::Count, Fault::Low),
    (Field::Count, Fault::Zero),
    (Field::Count, Fault::Most),
];

impl Kind {
    /// The kind of a map; a sound one has none.
    pub fn of(map: &Map) -> Option<Kind> {
        let sound = Map::of(map.words.clone());
        let mut odd = FIELDS.into_iter().flat_map(|field| {
            let values = map[field].iter().zip(&sound[field]).enumerate();
            values.filter(|(_, (value, fits))| value != fits).map(move |odd| (field, odd))
        });
        let (field, (place, (value, fits))) = odd.next()?;
        if odd.next().is_some() {
            let sum = |map: &Map| map[Field::Count].iter().copied().map(u64::from).sum::<u64>();
            let is_sum = field == Field::Count && sum(map) == sum(&sound);
            return Some(if is_sum { Kind::Sum } else { Kind::Several });
        }
        let place = match place {
            _ if map[field].len() == 1 => Place::Whole,
            0 => Place::First,
            _ if place + 1 == map.trees() => Place::Last,
            _ => Place::Middle,
        };
        let fault = if field == Field::Count { count_fault(*value, *fits) } else { bit_fault(*value, *fits) };
        Some(Kind::One(field, fault, place))
    }

    /// The kinds of map that each call of a layout has to be made on.
    pub fn due(layout: Layout) -> Vec<Kind> {
        let places: &[Place] = match layout {
            Layout::Word => return Vec::new(),
            Layout::Tree | Layout::InPlace => &[Place::Whole],
            Layout::Third => &[Place::First, Place::Middle, Place::Last],
        };
        let of_tree = |&place| DUE.map(|(field, fault)| Kind::One(field, fault, place));
        let mut kinds: Vec<Kind> = places.iter().flat_map(of_tree).collect();
        if layout == Layout::Third {
            let over = [Fault::Missing, Fault::TooMany];
            kinds.extend(over.map(|fault| Kind::One(Field::Over, fault, Place::Whole)));
            kinds.push(Kind::Sum);
        }
        kinds.push(Kind::Several);
        kinds
    }

    pub fn name(self) -> String {
        let (field, fault, place) = match self {
            Kind::One(field, fault, place) => (field, fault, place),
            Kind::Sum => return "counts of several trees, their sum right".into(),
            Kind::Several => return "more than one field".into(),
        };
        let field = match field {
            Field::Summary => "summary",
            Field::Over => "summary over the trees",
            Field::Full => "mark of full words",
            Field::Count => "count",
        };
        let fault = match fault {
            Fault::Missing => "a bit missing",
            Fault::TooMany => "a bit too many",
            Fault::Neighbour => "a bit at the neighbouring place",
            Fault::Bits => "other bits",
            Fault::High => "too high by one",
            Fault::Low => "too low by one",
            Fault::Zero => "0",
            Fault::Most => "65535",
            Fault::Number => "another number",
        };
        let place = match place {
            Place::Whole => "",
            Place::First => ", in the first tree",
            Place::Middle => ", in a middle tree",
            Place::Last => ", in the last tree",
        };
        format!("{field}: {fault}{place}")
    }
}

fn bit_fault(value: u16, fits: u16) -> Fault {
    let (missing, more) = (fits & !value, value & !fits);
    match (missing.count_ones(), more.count_ones()) {
        (1, 0) => Fault::Missing,
        (0, 1) => Fault::TooMany,
        (1, 1) if missing << 1 == more || more << 1 == missing => Fault::Neighbour,
        _ => Fault::Bits,
    }
}

fn count_fault(value: u16, fits: u16) -> Fault {
    match value {
        _ if value.checked_sub(1) == Some(fits) => Fault::High,
        _ if value.checked_add(1) == Some(fits) => Fault::Low,
        0 => Fault::Zero,
        u16::MAX => Fault::Most,
        _ => Fault::Number,
    }
}

// ---- maps

/// Maps of so many words, of each kind and more: on the empty map, on the full one and on a mixed one.
pub fn maps(words: usize) -> Vec<Map> {
    let (empty, full, mixed) = (Map::empty(words), Map::full(words), mixed(words));
    let mut maps = Vec::new();
    for map in [&empty, &full, &mixed] {
        for &tree in trees(words) {
            maps.extend([1, 1 << 15, 1 << 1].map(|bits| map.clone().turned(Field::Summary, tree, bits)));
            // the nearly full word's mark, a mark that has moved up, one that has moved down, all of them
            let marks = [1, 1 << 15, 1 << 2, 0b11, 0b11 << 14, u16::MAX];
            maps.extend(marks.map(|bits| map.clone().turned(Field::Full, tree, bits)));
            let count = map[Field::Count][tree];
            let counts = [Some(count + 1), count.checked_sub(1), Some(0), Some(u16::MAX), Some(count + 256)];
            let counts = counts.into_iter().flatten().filter(|other| *other != count);
            maps.extend(counts.map(|other| map.clone().with_one(Field::Count, tree, other)));
        }
        if map.is_third() {
            maps.extend([1, 1 << 15, 1 << 1].map(|bits| map.clone().turned(Field::Over, 0, bits)));
        }
        for other in [&empty, &full].into_iter().filter(|other| *other != map) {
            maps.push(
                FIELDS.into_iter().fold(map.clone(), |map, field| map.with(field, other[field].clone())),
            );
        }
    }
    if words == THIRD {
        maps.extend(two_trees(&mixed));
    }
    maps
}

/// A map in which these trees have full words, a nearly full one, empty ones and one of a single slot.
fn mixed(words: usize) -> Map {
    let tree = [(0, TOP), (2, !(1 << 63)), (7, TOP), (8, 1), (15, TOP)];
    let given = trees(words).iter().flat_map(|i| tree.map(|(place, word)| (16 * i + place, word)));
    Map::only(words, &given.collect::<Vec<_>>())
}

/// The first tree of a third level, a middle one and the last; a tree is its own first.
fn trees(words: usize) -> &'static [usize] {
    if words == THIRD {
        &[0, 7, 15]
    } else {
        &[0]
    }
}

/// A third level with a field of two trees at odds: counts whose sum is right, and each field at the tree beside its own.
fn two_trees(map: &Map) -> Vec<Map> {
    let counts = &map[Field::Count];
    let more = map.clone().with_one(Field::Count, 0, counts[0] + 1);
    let sum = more.with_one(Field::Count, 15, counts[15] - 1);
    let swapped = OF_TREES.map(|field| {
        let mut map = map.clone();
        map[field].swap(7, 8);
        map
    });
    [sum].into_iter().chain(swapped).collect()
}

/// The first of these maps that is of each kind.
pub fn one_of_each(words: usize) -> Vec<Map> {
    let mut seen = Vec::new();
    let mut maps = maps(words);
    maps.retain(|map| {
        let kind = Kind::of(map);
        let new = !seen.contains(&kind);
        seen.push(kind);
        new
    });
    maps
}

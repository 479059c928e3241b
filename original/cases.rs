//! The calls that are made in every run: every small case of the word and of the helpers, the boundaries of the tree
//! and of the third level, and unsound maps. A family of calls is made from the numbers given to it, so that the list can
//! have fewer.

use crate::calls::{Act, Layout, Op, Request, Way};
use crate::map::{Map, OF_TREES, THIRD, TREE};
use crate::unsound;

/// Makes a call; hands back the map that a series goes on with, or nothing once enough calls are made.
pub type Make<'a> = &'a mut dyn FnMut(Request) -> Option<Map>;

/// The greatest number.
pub const TOP: u64 = u64::MAX;

/// Word maps.
const WORDS: [u64; 15] = [
    0,
    TOP,
    0x5555_5555_5555_5555,
    0xaaaa_aaaa_aaaa_aaaa,
    0x0000_0000_ffff_ffff,
    0xffff_ffff_0000_0000,
    1,
    1 << 63,
    1 << 63 | 1,
    !1,
    !(1 << 63),
    !(1 << 63 | 1),
    0x00f0_0ff0_03c1_8001,
    0x8001_7ffe_0000_ff0f,
    0xfffe_ffff_7fff_ff3f,
];

/// Maps of so many words whose used slots lie at boundaries.
pub fn boundary_maps(words: usize) -> Vec<Map> {
    let last = words - 1;
    let full_where =
        |full: &dyn Fn(usize) -> bool| (0..words).map(|i| if full(i) { TOP } else { 0 }).collect();
    vec![
        Map::empty(words),
        Map::full(words),
        Map::only(words, &[(0, 1), (last, 1 << 63)]),
        Map::only(words, &[(0, 1 << 63), (last, 1)]),
        Map::only(words, &[(last - 1, 1 << 63)]),
        Map::of((0..words).map(|i| if i < last { TOP } else { !(1 << 63) }).collect()),
        Map::of(full_where(&|i| i < words / 2)),
        Map::of(full_where(&|i| i % 2 == 0)),
        Map::of(vec![1 << 63 | 1; words]),
        Map::of(vec![0x5555_5555_5555_5555; words]),
    ]
}

/// Maps of a third level, also with used slots at the boundaries of its trees.
pub fn third_maps() -> Vec<Map> {
    let mut maps = boundary_maps(THIRD);
    let starts: Vec<(usize, u64)> = (0..16).map(|tree| (16 * tree, 1)).collect();
    let turns = (0..THIRD).map(|i| if i / 16 % 2 == 0 { TOP } else { 0 });
    maps.extend([
        Map::only(THIRD, &[(0, 1)]),
        Map::only(THIRD, &[(15, 1 << 63), (16, 1)]),
        Map::only(THIRD, &[(239, 1 << 63), (240, 1)]),
        Map::only(THIRD, &starts),
        Map::of(turns.collect()),
    ]);
    maps
}

/// Numbers around each multiple of the sixteenth of a size up to it, and far past it.
fn places(size: u64) -> Vec<u64> {
    let part = size / 16;
    let mut places: Vec<u64> = (0..17).flat_map(|i| [part * i, part * i + 1, part * i + part - 1]).collect();
    places.extend([size + 2, 2 * size, 1 << 32, (1 << 63) - 1, 1 << 63, TOP - (size - 1), TOP - 1, TOP]);
    places
}

/// Numbers of entries around one or two sixteenths of a size, and around all of it.
fn entries(size: u64) -> Vec<u64> {
    let part = size / 16;
    let mut entries = vec![0, 1, 2, part - 1, part, part + 1, 2 * part - 1, 2 * part, 2 * part + 1];
    entries.extend([size / 2, size - part, size - 1, size, size + 1]);
    entries.extend([1 << 32, 1 << 63, TOP - 63, TOP - 1, TOP]);
    entries
}

/// The exponents up to two above those that a layout takes, and far past them.
fn exponents(layout: Layout) -> Vec<u64> {
    (0..layout.exponents() + 2).chain([63, 64, 255, TOP]).collect()
}

/// Set, free and claim of each of these ranges on each of these maps.
pub fn ranges(make: Make, layout: Layout, maps: &[Map], starts: &[u64], entries: &[u64]) -> Option<()> {
    for map in maps {
        for &start in starts {
            for &n in entries {
                make(Request::set(layout, start, n, true, map.clone()))?;
                make(Request::set(layout, start, n, false, map.clone()))?;
                make(Request::new(Op::Slots(layout, Act::Free), start, n, map.clone()))?;
                make(Request::new(Op::Slots(layout, Act::Claim), start, n, map.clone()))?;
            }
        }
    }
    Some(())
}

pub fn takes(make: Make, layout: Layout, maps: &[Map], entries: &[u64], exponents: &[u64]) -> Option<()> {
    for map in maps {
        for &n in entries {
            for &a in exponents {
                make(Request::new(Op::Slots(layout, Act::Take), n, a, map.clone()))?;
            }
        }
    }
    Some(())
}

/// Next free and get at each of these places, empty and used.
pub fn questions(make: Make, layout: Layout, maps: &[Map], places: &[u64]) -> Option<()> {
    for map in maps {
        for &place in places {
            make(Request::new(Op::Slots(layout, Act::NextFree), place, 0, map.clone()))?;
            make(Request::new(Op::Slots(layout, Act::Get), place, 0, map.clone()))?;
        }
        make(Request::new(Op::Slots(layout, Act::Empty), 0, 0, map.clone()))?;
        make(Request::new(Op::Slots(layout, Act::Used), 0, 0, map.clone()))?;
    }
    Some(())
}

/// Each call of a layout, as far as these numbers go.
pub fn each(
    make: Make,
    layout: Layout,
    maps: &[Map],
    starts: &[u64],
    entries: &[u64],
    exponents: &[u64],
) -> Option<()> {
    ranges(make, layout, maps, starts, entries)?;
    takes(make, layout, maps, entries, exponents)?;
    questions(make, layout, maps, starts)
}

/// Take and free in place, as far as these numbers go.
pub fn in_place(make: Make, maps: &[Map], starts: &[u64], entries: &[u64], exponents: &[u64]) -> Option<()> {
    takes(make, Layout::InPlace, maps, entries, exponents)?;
    for map in maps {
        for &start in starts {
            for &n in entries {
                make(Request::new(Op::Slots(Layout::InPlace, Act::Free), start, n, map.clone()))?;
            }
        }
    }
    Some(())
}

/// The three roundings of each value to each alignment, where both fit the width.
pub fn roundings(make: Make, width: u32, values: &[u64], alignments: &[u64]) -> Option<()> {
    let fits = |number: &&u64| width == 64 || **number <= u64::from(u32::MAX);
    for &value in values.iter().filter(fits) {
        for &alignment in alignments.iter().filter(fits) {
            for way in [Way::Up, Way::Down, Way::Is] {
                make(Request::new(Op::Round(way, width), value, alignment, Map::empty(TREE)))?;
            }
        }
    }
    Some(())
}

/// The page helpers at each of these values.
pub fn pages(make: Make, values: &[u64]) -> Option<()> {
    for &value in values {
        for op in [Op::PageUp, Op::Pages, Op::PageOffset] {
            make(Request::new(op, value, 0, Map::empty(TREE)))?;
        }
    }
    Some(())
}

/// One bit at each of these places, and the mask between each two of them.
pub fn masks(make: Make, places: &[u64]) -> Option<()> {
    for &start in places {
        make(Request::new(Op::Bit, start, 0, Map::empty(TREE)))?;
        for &end in places {
            make(Request::new(Op::Mask, start, end, Map::empty(TREE)))?;
        }
    }
    Some(())
}

/// The overlap of each two intervals with ends among these numbers.
pub fn overlaps(make: Make, ends: &[u64]) -> Option<()> {
    for &x in ends {
        for &y in ends {
            for &first in ends {
                for &last in ends {
                    make(Request::overlap(x, y, first, last))?;
                }
            }
        }
    }
    Some(())
}

/// Numbers at the edges of the widths, of the pages and of the powers of two.
pub fn wide_numbers() -> Vec<u64> {
    let powers = [1 << 12, 1 << 16, 1 << 31, 1 << 32, 1 << 63];
    let mut numbers: Vec<u64> = powers.iter().flat_map(|power| [power - 1, *power, power + 1]).collect();
    numbers.extend([0, 1, 2, 3, 5, 8191, 8192, (1 << 32) - 4097, (1 << 32) - 4096, (1 << 32) - 4095]);
    numbers.extend([TOP - 4096, TOP - 4095, TOP - 4094, TOP - 1, TOP]);
    numbers
}

/// Each word map, with other words and fields that a word call must hand back as they are.
fn word_maps() -> Vec<Map> {
    let with = |word| {
        let others = (1..TREE as u64).map(|i| 0x0101_0101_0101_0101 * i);
        let map = Map::of([word].into_iter().chain(others).collect());
        let fields = OF_TREES.into_iter().zip([0xa5c3, 0x3c5a, 0x9669]);
        fields.fold(map, |map, (field, value)| map.with_one(field, 0, value))
    };
    WORDS.map(with).to_vec()
}

/// All of them, but for those of the third level.
pub fn all(make: Make) -> Option<()> {
    let small: Vec<u64> = (0..=66).collect();
    let words = word_maps();
    ranges(make, Layout::Word, &words, &small, &small)?;
    takes(make, Layout::Word, &words, &small, &(0..=8).collect::<Vec<_>>())?;
    questions(make, Layout::Word, &words, &small)?;
    for width in [64, 32] {
        roundings(make, width, &small, &small)?;
        roundings(make, width, &wide_numbers(), &wide_numbers())?;
    }
    pages(make, &wide_numbers())?;
    masks(make, &small)?;
    overlaps(make, &[0, 1, 2, 3, 1 << 63, TOP - 1, TOP])?;
    let trees = boundary_maps(TREE);
    boundaries(make, Layout::Tree, &trees)?;
    in_place(make, &trees, &places(1024), &entries(1024), &exponents(Layout::InPlace))?;
    let trees = unsound::maps(TREE);
    let (starts, entries, exponents) = ([0, 1, 64, 1023, 1024], [0, 1, 64, 1024, 1025], [0, 9, 10]);
    each(make, Layout::Tree, &trees, &starts, &entries, &exponents)?;
    in_place(make, &trees, &starts, &entries, &exponents)
}

/// Those of the third level.
pub fn thirds(make: Make) -> Option<()> {
    let maps = third_maps();
    boundaries(make, Layout::Third, &maps)?;
    // at the boundaries of words within a tree
    let (starts, entries) = ([63, 64, 65, 16319, 16320], [1, 2, 63, 64, 65, 129]);
    each(make, Layout::Third, &maps, &starts, &entries, &[0, 6])?;
    let maps = unsound::maps(THIRD);
    let (starts, entries) = ([0, 1023, 1024, 16384], [0, 1, 1025, 16385]);
    each(make, Layout::Third, &maps, &starts, &entries, &[0, 13, 14])
}

/// The calls of a layout at its boundaries.
fn boundaries(make: Make, layout: Layout, maps: &[Map]) -> Option<()> {
    let (places, entries) = (places(layout.capacity()), entries(layout.capacity()));
    each(make, layout, maps, &places, &entries, &exponents(layout))
}

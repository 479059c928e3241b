//! A difference made small: the request with fewer used slots, smaller numbers and fields that fit better that
//! still shows one.

use crate::calls::{Op, Outcome, Request};
use crate::map::{Field, Map, FIELDS};
use crate::program;
use crate::rules::{self, Verdict};
use crate::source;
use std::time::{Duration, Instant};

const PATIENCE: Duration = Duration::from_secs(30);

/// So many requests are tried by one run of the program.
const BLOCK: usize = 1024;

/// A call with what the original and ours made of it, which differ.
pub struct Difference {
    pub request: Request,
    pub original: Outcome,
    pub ours: Outcome,
}

/// Goes on to the first smaller request that differs too, until there is none; it stops where that takes long.
pub fn smallest(command: &[String], found: Difference) -> Difference {
    let until = Instant::now() + PATIENCE;
    let mut smallest = found;
    while Instant::now() < until {
        match first_difference(command, smaller(&smallest.request)) {
            Some(difference) => smallest = difference,
            None => break,
        }
    }
    smallest
}

fn first_difference(command: &[String], mut requests: impl Iterator<Item = Request>) -> Option<Difference> {
    loop {
        let block: Vec<Request> = requests.by_ref().take(BLOCK).collect();
        let answers = program::asked(command, &block).ok().filter(|answers| !answers.is_empty())?;
        let found = block.into_iter().zip(answers).find_map(|(request, ours)| {
            let original = source::carried_out(&request);
            let differs = rules::judged(&request, &original, &ours) == Verdict::Unlisted;
            differs.then_some(Difference { request, original, ours })
        });
        if found.is_some() {
            return found;
        }
    }
}

/// Each request that is smaller in one respect, the boldest first.
fn smaller(request: &Request) -> impl Iterator<Item = Request> + '_ {
    let with_map = |map| Request { map, ..request.clone() };
    let xs = numbers(request.x).map(|x| Request { x, ..request.clone() });
    let ys = numbers(request.y).map(|y| Request { y, ..request.clone() });
    let flags = request.flag.then(|| Request { flag: false, ..request.clone() });
    maps(&request.map).chain(ends(request)).map(with_map).chain(xs).chain(ys).chain(flags)
}

/// The maps of an overlap with one of its two ends smaller; no other call has any.
fn ends(request: &Request) -> impl Iterator<Item = Map> + '_ {
    let places = if request.op == Op::Overlap { 0..2 } else { 0..0 };
    let with = |i: usize, end: u64| {
        let mut map = request.map.clone();
        map.words[i] = end;
        map
    };
    places.flat_map(move |i| numbers(request.map.words[i]).map(move |end| with(i, end)))
}

/// The map with fields that fit better, and without its used slots in parts of every size.
fn maps(map: &Map) -> impl Iterator<Item = Map> + '_ {
    let values = FIELDS.into_iter().flat_map(|field| {
        let odd = map.pairs(field).enumerate().filter(|(_, (value, fits))| value != fits);
        odd.flat_map(move |(i, (value, fits))| {
            nearer(field, value, fits).into_iter().map(move |value| (field, i, value))
        })
    });
    let simpler = values.map(|(field, i, value)| map.clone().with_one(field, i, value));
    let sizes = (0..=map.capacity().ilog2()).rev().map(|exponent| 1 << exponent);
    let parts = sizes.flat_map(|size| (0..map.capacity() / size).map(move |i| (size * i, size * (i + 1))));
    simpler.chain(parts.flat_map(|(start, end)| without(map, start, end)))
}

/// Values of a field between this one and the one that fits, that one first.
fn nearer(field: Field, value: u16, fits: u16) -> Vec<u16> {
    match field {
        Field::Count => {
            let far = numbers(value.abs_diff(fits).into()).map(|far| far as u16);
            far.map(|far| if value > fits { fits + far } else { fits - far }).collect()
        }
        _ => {
            let odd = (0..16).map(|i| 1 << i).filter(|bit| (value ^ fits) & bit != 0);
            [fits].into_iter().chain(odd.map(|bit| value ^ bit)).collect()
        }
    }
}

/// The map without these slots, its fields at odds where they were or as they were, but no more at odds than before;
/// nothing where the slots are all free.
fn without(map: &Map, start: u64, end: u64) -> Vec<Map> {
    let mut less = map.clone();
    less.paint(start, end, false);
    if less.words == map.words {
        return Vec::new();
    }
    let mut odd = Map::of(less.words.clone());
    for field in FIELDS {
        let moved = |(now, (value, fits)): (u16, (u16, u16))| match field {
            Field::Count => now.wrapping_add(value).wrapping_sub(fits),
            _ => now ^ value ^ fits,
        };
        odd[field] = odd.fitting(field).into_iter().zip(map.pairs(field)).map(moved).collect();
    }
    let most = distance(map);
    [odd, less].into_iter().filter(|less| distance(less) <= most).collect()
}

/// How far the fields of a map are from those that fit: the bits that differ, and the differences of counts.
fn distance(map: &Map) -> u32 {
    let bits = FIELDS.into_iter().filter(|field| *field != Field::Count).flat_map(|field| map.pairs(field));
    let counts = map.pairs(Field::Count).map(|(value, fits)| u32::from(value.abs_diff(fits)));
    bits.map(|(value, fits)| (value ^ fits).count_ones()).chain(counts).sum()
}

/// Smaller numbers, from 0 up to one less.
fn numbers(number: u64) -> impl Iterator<Item = u64> {
    let steps = (0..64).map(move |i| number >> i).take_while(|step| *step > 0);
    steps.map(move |step| number - step)
}

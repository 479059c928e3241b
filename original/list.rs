//! The stored list: calls with the original's answers, as text, for a replay without the original.

use crate::calls::{Act, Layout, Op, Outcome, Request, Way};
use crate::cases::{self, Make, TOP};
use crate::dice::Dice;
use crate::map::{Field, Map, THIRD, TREE};
use crate::{helpers, random, rules, show, source, unsound};
use std::fmt::Write;

const HEAD: &str = "\
# Calls of the slot map with the original's answers, made by running it built with overflow checks:
#
#     tests/compare-original --seed SEED --list > tests/original.list
#
# tests/replay-original makes the same calls and compares. Numbers are decimal; words, summaries and marks are hex.
#
# `map` says the map of the calls below it: the words that are not 0, place:word, equal words in a row as
# first-last:word, `-` for none. After them come its fields, each only where it does not fit the words: /summary, full/mark
# for the mark of full words, count/number. A word call is made on word 0. `map third` is one of 256 words:
# /tree:summary, full/tree:mark and count/tree:number are of a tree and /summary is the one over them, where it is not
# that of the sound map.
#
# CALL = ANSWER; CHANGE is a call on that map. The numbers of a call: take N EXPONENT; claim, free START N;
# set START N on|off; next_free START; get SLOT; align_.., is_aligned_.. VALUE ALIGNMENT; overlap FIRST LAST
# FIRST LAST, on an empty map of its own; mask START END; the others have one or none. The answer is done, a
# number, yes or no, `not found` for the original's None, or `none: REASON` where it has no answer. The
# change, of a call that may change its map, is `same`, or the words that are others than before and
# each summary that is another; the original has no other fields. `then` before a call: its map, and that of the calls
# below it, is what the line above left, with the marks and the counts that fit.
";

/// The list made with this seed.
pub fn made(seed: u64) -> String {
    let mut list = List { text: HEAD.replace("SEED", &seed.to_string()), map: None, left: None };
    calls(seed, &mut |request| Some(list.line(&alone(request))));
    list.text
}

/// The list so far, the map of the calls below, and the map that the last line left.
struct List {
    text: String,
    map: Option<Map>,
    left: Option<Map>,
}

impl List {
    /// Adds a call, on its own map or on the one before it; hands back the map to go on with.
    fn line(&mut self, request: &Request) -> Map {
        let original = source::carried_out(request);
        let call = format!("{} = {}", show::call(request), said(request, &original));
        let _ = match Some(&request.map) {
            map if map == self.map.as_ref() || request.op == Op::Overlap => writeln!(self.text, "{call}"),
            map if map == self.left.as_ref() => writeln!(self.text, "then {call}"),
            _ => writeln!(self.text, "map {}\n{call}", show::map(&request.map)),
        };
        if request.op != Op::Overlap {
            self.map = Some(request.map.clone());
        }
        let on = rules::went_on(request, &original).clone();
        self.left = Some(original.map);
        on
    }
}

/// An overlap's line tells its four ends, so its map has nothing but the last two.
fn alone(request: Request) -> Request {
    let (first, last) = request.ends();
    match request.op {
        Op::Overlap => Request::overlap(request.x, request.y, first, last),
        _ => request,
    }
}

fn said(request: &Request, original: &Outcome) -> String {
    let answer = show::answer(&original.answer);
    match request.op {
        Op::Slots(_, Act::Take | Act::Claim | Act::Free | Act::Set) if !answer.starts_with("none") => {
            format!("{answer}; {}", show::change(&request.map, &original.map))
        }
        _ => answer,
    }
}

fn calls(seed: u64, make: Make) -> Option<()> {
    smallest_departures(make)?;
    word_calls(make)?;
    tree_calls(make)?;
    unsound_calls(make)?;
    helper_calls(make)?;
    random_calls(seed, make)?;
    third_calls(make)?;
    third_series(seed, make)
}

/// For each listed departure the smallest call that shows it.
fn smallest_departures(make: Make) -> Option<()> {
    let tree = |act, x, y, map| Request::new(Op::Slots(Layout::Tree, act), x, y, map);
    let word = |act, x, y, map| Request::new(Op::Slots(Layout::Word, act), x, y, map);
    let (empty, full) = (|| Map::empty(TREE), || Map::full(TREE));
    let at_odds = |field| empty().turned(field, 0, 1);
    let calls = [
        tree(Act::Empty, 0, 0, at_odds(Field::Summary)),
        tree(Act::Get, 0, 0, at_odds(Field::Summary)),
        tree(Act::NextFree, 0, 0, at_odds(Field::Full)),
        tree(Act::Used, 0, 0, at_odds(Field::Count)),
        tree(Act::Free, 1, 0, full()),
        word(Act::Free, 0, 0, full()),
        tree(Act::Take, 0, 10, empty()),
        word(Act::Take, 0, 6, empty()),
        Request::set(Layout::Tree, 1023, 2, true, empty()),
        Request::set(Layout::Tree, 1024, 1, true, empty()),
        tree(Act::NextFree, 1024, 0, empty()),
        Request::new(Op::Mask, 2, 64, empty()),
        tree(Act::Free, 0, 2, Map::of_word(1)),
        word(Act::Free, 0, 2, Map::of_word(1)),
        Request::new(Op::Round(Way::Up, 64), 1, 3, empty()),
        Request::overlap(1, 0, 0, 1),
        Request::overlap(5, 3, 0, 10),
    ];
    for call in calls {
        make(call)?;
    }
    Some(())
}

fn word_calls(make: Make) -> Option<()> {
    let maps = [0, TOP, 1, 1 << 63, 0xffff_ffff, 0x00f0_0ff0_03c1_8001].map(Map::of_word);
    let entries = [0, 1, 2, 31, 32, 33, 63, 64, 65];
    let far = [1 << 32, TOP - 63, TOP];
    cases::ranges(make, Layout::Word, &maps, &[0, 1, 31, 32, 62, 63, 64], &entries)?;
    cases::ranges(make, Layout::Word, &maps[1..3], &[0, 63, 64, 1 << 32, TOP], &far)?;
    cases::takes(make, Layout::Word, &maps, &entries, &[0, 1, 4, 5, 6])?;
    cases::takes(make, Layout::Word, &maps[..2], &far, &[0, 5, 6, 63, 64, 255, TOP])?;
    cases::questions(make, Layout::Word, &maps, &[0, 1, 8, 31, 32, 62, 63, 64, 65, TOP])
}

fn tree_calls(make: Make) -> Option<()> {
    let maps = cases::boundary_maps(TREE);
    let starts = [0, 1, 63, 64, 65, 512, 960, 1022, 1023, 1024, 1025];
    let entries = [0, 1, 2, 63, 64, 65, 1023, 1024, 1025];
    let far = [1 << 32, 1 << 63, TOP - 1, TOP];
    cases::ranges(make, Layout::Tree, &maps[..3], &starts, &entries)?;
    cases::ranges(make, Layout::Tree, &maps[1..3], &[0, 1023, 1024, 1 << 32, TOP], &far)?;
    cases::takes(make, Layout::Tree, &maps, &entries, &[0, 1, 6, 9, 10])?;
    cases::takes(make, Layout::Tree, &maps[..2], &far, &[0, 9, 10, 11, 63, 64, 255, TOP])?;
    cases::questions(make, Layout::Tree, &maps, &starts)?;
    cases::questions(make, Layout::Tree, &maps[..1], &far)?;
    cases::in_place(make, &maps[..3], &starts, &entries, &[0, 5, 9, 10])
}

/// On trees with a summary at odds, and fewer on one of each kind of unsound tree.
fn unsound_calls(make: Make) -> Option<()> {
    let some = Map::only(TREE, &[(0, 1), (15, 1 << 63)]);
    let turned = [(Map::empty(TREE), 1), (Map::full(TREE), 1 << 15), (some, 0x0006)];
    let maps = turned.map(|(map, bits)| map.turned(Field::Summary, 0, bits));
    unsound_trees(make, &maps, &[0, 1, 64, 1023, 1024], &[0, 1, 64, 1024, 1025], &[0, 9, 10])?;
    unsound_trees(make, &unsound::one_of_each(TREE), &[0, 1024], &[0, 1, 65], &[0, 10])
}

fn unsound_trees(make: Make, maps: &[Map], starts: &[u64], entries: &[u64], exponents: &[u64]) -> Option<()> {
    cases::each(make, Layout::Tree, maps, starts, entries, exponents)?;
    cases::questions(make, Layout::Word, maps, &[0, 63, 64])?;
    cases::in_place(make, maps, starts, entries, exponents)
}

fn helper_calls(make: Make) -> Option<()> {
    let values = [0, 1, 4095, 4096, 4097, (1 << 32) - 4096, (1 << 32) - 1, 1 << 63, TOP - 4095, TOP];
    let alignments = [0, 1, 2, 3, 64, 65, 4096, 1 << 31, (1 << 32) - 1, 1 << 63, TOP];
    for width in [64, 32] {
        cases::roundings(make, width, &values, &alignments)?;
    }
    cases::pages(make, &cases::wide_numbers())?;
    cases::masks(make, &[0, 1, 2, 31, 32, 62, 63, 64, 65, 127, TOP])?;
    cases::overlaps(make, &[0, 1, 2, 5])
}

/// Random series, and a few of the other random calls.
fn random_calls(seed: u64, make: Make) -> Option<()> {
    let mut dice = Dice::new(seed);
    for _ in 0..50 {
        random::any_series(&mut dice, make)?;
    }
    for _ in 0..4 {
        random::any_boundaries(&mut dice, make)?;
        random::any_unsound(&mut dice, make)?;
        helpers::some(&mut dice, make)?;
    }
    Some(())
}

fn third_calls(make: Make) -> Option<()> {
    let maps = short_thirds();
    let starts = [0, 1023, 1024, 15360, 16383, 16384];
    cases::ranges(make, Layout::Third, &maps[..3], &starts, &[0, 1, 1025, 16384, 16385])?;
    cases::takes(make, Layout::Third, &maps, &[1, 1025, 16384], &[0, 13])?;
    cases::takes(make, Layout::Third, &maps[..2], &[0, 1, 16384, 16385, TOP], &[0, 13, 14, TOP])?;
    cases::questions(make, Layout::Third, &maps, &[0, 1023, 16383, 16384])?;
    let maps = unsound::one_of_each(THIRD);
    cases::ranges(make, Layout::Third, &maps, &[1023], &[1, 2])?;
    cases::takes(make, Layout::Third, &maps, &[0, 1], &[0, 13])?;
    cases::questions(make, Layout::Third, &maps, &[0, 16384])
}

/// A random series of the third level on each of some maps.
fn third_series(seed: u64, make: Make) -> Option<()> {
    let mut dice = Dice::new(seed);
    for map in short_thirds().into_iter().step_by(3) {
        random::third_series_on(&mut dice, map, make)?;
    }
    Some(())
}

/// Maps of a third level that are short to tell.
fn short_thirds() -> Vec<Map> {
    cases::third_maps().into_iter().filter(|map| show::map(map).len() < 300).collect()
}

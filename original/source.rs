//! The original: its two files, included unchanged, and a call carried out by them. Where they panic the call
//! has no answer, and the first words of the panic say why.

use crate::calls::{Act, Answer, Layout, Op, Outcome, Request, Way};
use crate::map::{Map, THIRD, TREE};
use bitmap::{BitmapAllocator, BitmapAllocator1024, BitmapAllocator16384, BitmapAllocator64};
use std::cell::{Cell, RefCell};
use std::panic;

/// bitmap_allocator.rs, and beside it the ways into its maps and out of them.
mod bitmap {
    include!(concat!(env!("ORIGINAL"), "/kernel/src/utils/bitmap_allocator.rs"));
    use crate::map::{Field, Map};

    /// The third level, which has no name in the file.
    pub type BitmapAllocator16384 = BitmapAllocatorTree<BitmapAllocator1024>;

    pub fn word_of(bits: u64) -> BitmapAllocator64 {
        BitmapAllocator64 { bits }
    }

    pub fn bits_of(word: &BitmapAllocator64) -> u64 {
        word.bits
    }

    pub fn tree_of(words: &[u64], summary: u16) -> BitmapAllocator1024 {
        BitmapAllocatorTree { bits: summary, child: std::array::from_fn(|i| word_of(words[i])) }
    }

    pub fn third_of(map: &Map) -> BitmapAllocator16384 {
        let tree = |i| tree_of(&map.words[16 * i..], map[Field::Summary][i]);
        BitmapAllocatorTree { bits: map.summary(), child: std::array::from_fn(tree) }
    }

    /// With the marks of full words and the counts that its words have: there are none in the file.
    pub fn map_of_tree(tree: &BitmapAllocator1024) -> Map {
        let words = tree.child.iter().map(bits_of).collect();
        Map::of(words).with(Field::Summary, vec![tree.bits])
    }

    /// The same of a third level.
    pub fn map_of_third(third: &BitmapAllocator16384) -> Map {
        let words = third.child.iter().flat_map(|tree| tree.child.iter().map(bits_of)).collect();
        let summaries = third.child.iter().map(|tree| tree.bits).collect();
        Map::of(words).with(Field::Summary, summaries).with(Field::Over, vec![third.bits])
    }
}

/// util.rs, and beside it functions that use its two macros.
#[allow(dead_code)]
mod util {
    include!(concat!(env!("ORIGINAL"), "/kernel/src/utils/util.rs"));

    pub fn bit(position: u64) -> u64 {
        BIT!(position)
    }

    pub fn mask(start: u64, end: u64) -> u64 {
        BIT_MASK!(end, start)
    }
}

const NO_CLAIM: &str = "the original has no claim";

thread_local! {
    static INSIDE: Cell<bool> = const { Cell::new(false) };
    static REASONS: RefCell<Vec<&'static str>> = const { RefCell::new(Vec::new()) };
}

/// The original's empty and full maps are those that a series starts from, and its capacities are the paper's. Its
/// third level has the default alone.
pub fn starts_alike() -> bool {
    use bitmap::{bits_of, map_of_third, map_of_tree};
    let trees =
        [BitmapAllocator1024::new_empty(), BitmapAllocator1024::default(), BitmapAllocator1024::new_full()];
    let words = [BitmapAllocator64::new_empty(), BitmapAllocator64::default(), BitmapAllocator64::new_full()];
    let third = BitmapAllocator16384::default();
    let expected = [Map::empty(TREE), Map::empty(TREE), Map::full(TREE)];
    (words[0].capacity(), trees[0].capacity(), third.capacity()) == (64, 1024, 16384)
        && trees.iter().zip(&expected).all(|(tree, map)| map_of_tree(tree) == *map)
        && words.iter().zip(&expected).all(|(word, map)| bits_of(word) == map.words[0])
        && map_of_third(&third) == Map::empty(THIRD)
}

/// From now on a panic of the original prints nothing; any other is told as always.
pub fn keep_panics_silent() {
    let told = panic::take_hook();
    panic::set_hook(Box::new(move |panic| {
        if !INSIDE.get() {
            told(panic);
        }
    }));
}

/// The call carried out by the original. Where it has no answer, the map is the one that came.
pub fn carried_out(request: &Request) -> Outcome {
    INSIDE.set(true);
    let done = panic::catch_unwind(|| answered(request));
    INSIDE.set(false);
    match done {
        Ok(outcome) => outcome,
        Err(panic) => {
            let said = panic.downcast_ref::<String>().map(String::as_str);
            let said = said.or(panic.downcast_ref::<&str>().copied()).unwrap_or("a panic");
            Outcome { answer: Answer::Missing(reason(said)), map: request.map.clone() }
        }
    }
}

/// The first words of a panic, up to a colon; each different text is kept once.
fn reason(said: &str) -> &'static str {
    let first = said.split(':').next().unwrap_or(said);
    REASONS.with_borrow_mut(|reasons| {
        if let Some(known) = reasons.iter().find(|known| **known == first) {
            return *known;
        }
        let kept: &'static str = first.to_string().leak();
        reasons.push(kept);
        kept
    })
}

fn answered(request: &Request) -> Outcome {
    let map = &request.map;
    match request.op {
        Op::Slots(Layout::Word, act) => {
            let mut word = bitmap::word_of(map.words[0]);
            let answer = slots(&mut word, act, request);
            let mut map = map.clone();
            map.words[0] = bitmap::bits_of(&word);
            Outcome { answer, map }
        }
        Op::Slots(Layout::Third, act) => {
            let mut third = bitmap::third_of(map);
            let answer = slots(&mut third, act, request);
            Outcome { answer, map: bitmap::map_of_third(&third) }
        }
        Op::Slots(_, act) => {
            let mut tree = bitmap::tree_of(&map.words, map.summary());
            let answer = slots(&mut tree, act, request);
            Outcome { answer, map: bitmap::map_of_tree(&tree) }
        }
        _ => Outcome { answer: helper(request), map: map.clone() },
    }
}

fn slots(map: &mut impl BitmapAllocator, act: Act, request: &Request) -> Answer {
    let (x, y) = (request.x as usize, request.y as usize);
    match act {
        Act::Take => return found(map.alloc(x, y)),
        Act::NextFree => return found(map.next_free(x)),
        Act::Get => return Answer::Truth(map.get(x)),
        Act::Empty => return Answer::Truth(map.empty()),
        Act::Used => return Answer::Number(map.used() as u64),
        Act::Claim if !is_like_set(map, x, y) => return Answer::Missing(NO_CLAIM),
        Act::Claim => map.set(x, y, true),
        Act::Free => map.free(x, y),
        Act::Set => map.set(x, y, request.flag),
    }
    Answer::Done
}

/// A claim is the original's set where the range lies in the map and all of it is free.
fn is_like_set(map: &impl BitmapAllocator, start: usize, n: usize) -> bool {
    start <= map.capacity() && n <= map.capacity() - start && (start..start + n).all(|slot| !map.get(slot))
}

fn found(slot: Option<usize>) -> Answer {
    slot.map_or(Answer::NotFound, |slot| Answer::Number(slot as u64))
}

fn helper(request: &Request) -> Answer {
    let (x, y) = (request.x, request.y);
    let (first, last) = request.ends();
    match request.op {
        Op::Round(Way::Up, 64) => Answer::Number(util::align_up(x, y)),
        Op::Round(Way::Down, 64) => Answer::Number(util::align_down(x, y)),
        Op::Round(Way::Is, 64) => Answer::Truth(util::is_aligned(x, y)),
        Op::Round(Way::Up, _) => Answer::Number(util::align_up(x as u32, y as u32).into()),
        Op::Round(Way::Down, _) => Answer::Number(util::align_down(x as u32, y as u32).into()),
        Op::Round(Way::Is, _) => Answer::Truth(util::is_aligned(x as u32, y as u32)),
        Op::PageUp => Answer::Number(util::page_align_up(x as usize) as u64),
        Op::Pages => Answer::Number(util::round_to_pages(x as usize) as u64),
        Op::PageOffset => Answer::Number(util::page_offset(x as usize) as u64),
        Op::Overlap => Answer::Truth(util::overlap(x, y, first, last)),
        Op::Bit => Answer::Number(util::bit(x)),
        Op::Mask => Answer::Number(util::mask(x, y)),
        Op::Slots(..) => unreachable!("slots are no helper"),
    }
}

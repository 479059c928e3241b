//! Compares the slot map with the original, call by call.
//!
//!     compare [--calls N] [--third M] [--seed S] -- COMMAND [ARGUMENT..]     COMMAND runs `compared_calls`
//!     compare [--seed S] --list                                              prints the stored list
//!
//! tests/compare-original builds it and runs it. The status is 1 where a difference is found, 2 where the
//! comparison cannot be made.

mod calls;
mod cases;
mod departures;
mod dice;
mod helpers;
mod list;
mod map;
mod program;
mod random;
mod rules;
mod show;
mod shrink;
mod source;
mod stubs;
mod tally;
mod unsound;

use calls::{Outcome, Request};
use cases::Make;
use program::Program;
use rules::Verdict;
use shrink::Difference;
use std::io::{IsTerminal, Write};
use std::process::{exit, ChildStdin};
use std::sync::mpsc::{self, Receiver, Sender};
use std::thread;
use std::time::Instant;
use tally::Tally;

// The names by which the original's files ask for what is not at hand.
use stubs::{address, types};

/// So many calls are made, written and judged at a time.
const BLOCK: usize = 1024;

struct Options {
    calls: u64,
    third: Option<u64>,
    seed: u64,
    list: bool,
    command: Vec<String>,
}

/// The calls come in two parts: those of the third level, and before them all others.
#[derive(Clone, Copy)]
struct Part {
    third: bool,
    calls: u64,
    seed: u64,
}

/// A call, what the original made of it, and whether it is made in every run.
#[derive(Clone)]
struct Made {
    request: Request,
    original: Outcome,
    fixed: bool,
}

fn main() {
    source::keep_panics_silent();
    let options = options().unwrap_or_else(|words| fail(&words));
    if !source::starts_alike() {
        fail("the original's empty and full maps or its capacities are not the paper's");
    }
    if options.list {
        let list = list::made(options.seed);
        std::io::stdout().write_all(list.as_bytes()).unwrap_or_else(|error| fail(&error.to_string()));
        return;
    }
    let Options { calls, third, seed, command, .. } = options;
    tell(Part { third: false, calls, seed }, &command);
    tell(Part { third: true, calls: third.unwrap_or(calls / 5), seed }, &command);
}

/// Compares a part, where it has calls, and prints what was seen.
fn tell(part: Part, command: &[String]) {
    if part.calls == 0 {
        return;
    }
    let began = Instant::now();
    let tally = compared(part, command).unwrap_or_else(|words| fail(&words));
    let seconds = began.elapsed().as_secs();
    println!("{} calls {} of seed {} in {seconds} s", tally.calls, part.name(), part.seed);
    println!("{tally}0 unlisted differences");
    let absent = tally.absent(part.third);
    if part.calls >= part.enough() && !absent.is_empty() {
        fail(&format!("nothing was seen of: {}", absent.join(", ")));
    }
}

impl Part {
    fn name(self) -> &'static str {
        if self.third {
            "of the third level"
        } else {
            "of the word, the tree and the helpers"
        }
    }

    /// From so many calls on, each kind of call, of departure and of unsound map has to be among them.
    fn enough(self) -> u64 {
        if self.third {
            200_000
        } else {
            1_000_000
        }
    }

    /// Makes the calls that are made in every run.
    fn fixed(self, make: Make) -> Option<()> {
        if self.third {
            cases::thirds(make)
        } else {
            cases::all(make)
        }
    }

    /// Makes the random ones.
    fn random(self, make: Make) -> Option<()> {
        if self.third {
            random::thirds(self.seed, make)
        } else {
            random::all(self.seed, make)
        }
    }
}

fn fail(words: &str) -> ! {
    eprintln!("tests/compare-original: {words}");
    exit(2)
}

fn options() -> Result<Options, String> {
    let mut options = Options { calls: 10_000_000, third: None, seed: 1, list: false, command: Vec::new() };
    let mut given = std::env::args().skip(1);
    while let Some(word) = given.next() {
        let mut number = || given.next().and_then(|n| n.parse().ok()).ok_or(format!("{word} needs a number"));
        match word.as_str() {
            "--calls" => options.calls = number()?,
            "--third" => options.third = Some(number()?),
            "--seed" => options.seed = number()?,
            "--list" => options.list = true,
            "--" => options.command = given.by_ref().collect(),
            _ => {
                return Err(format!(
                    "{word} is no option; there are --calls N, --third M, --seed S and --list"
                ))
            }
        }
    }
    if !options.list && options.command.is_empty() {
        return Err("the command that runs `compared_calls` is missing: -- COMMAND".into());
    }
    Ok(options)
}

/// Makes the calls in one thread, which also writes them to the program; reads and judges its answers in this.
fn compared(part: Part, command: &[String]) -> Result<Tally, String> {
    let (mut program, input) = Program::start(command)?;
    let (sender, receiver) = mpsc::channel();
    let maker = thread::spawn(move || make_calls(part, sender, input));
    let mut tally = Tally::default();
    if let Some(difference) = first_difference(&mut program, receiver, &mut tally)? {
        program.stop();
        explain(part, command, tally.calls, difference);
        exit(1);
    }
    maker.join().map_err(|_| "the thread that makes the calls failed")?;
    program.end()?;
    Ok(tally)
}

/// Makes a part's calls, in blocks; a block goes to the judge first, so that its answers are read while it is
/// being written. It ends early where the program does.
fn make_calls(part: Part, judge: Sender<Vec<Made>>, mut input: ChildStdin) {
    let mut made = 0;
    let mut block: Vec<Made> = Vec::with_capacity(BLOCK);
    let mut hand_over = |block: &mut Vec<Made>| {
        let bytes = program::bytes_of(block.iter().map(|made| &made.request));
        judge.send(std::mem::replace(block, Vec::with_capacity(BLOCK))).ok()?;
        input.write_all(&bytes).ok()
    };
    let mut make = |request: Request, fixed: bool| {
        if made == part.calls {
            return None;
        }
        made += 1;
        let original = source::carried_out(&request);
        let left = rules::went_on(&request, &original).clone();
        block.push(Made { request, original, fixed });
        if block.len() == BLOCK {
            hand_over(&mut block)?;
        }
        Some(left)
    };
    let fixed = part.fixed(&mut |request| make(request, true));
    let _ = fixed.and_then(|()| part.random(&mut |request| make(request, false)));
    let _ = hand_over(&mut block);
}

fn first_difference(
    program: &mut Program,
    blocks: Receiver<Vec<Made>>,
    tally: &mut Tally,
) -> Result<Option<Difference>, String> {
    for block in blocks {
        let answers = program.answers(block.iter().map(|made| &made.request))?;
        let unanswered = block.get(answers.len()).cloned();
        for (Made { request, original, fixed }, ours) in block.into_iter().zip(answers) {
            let verdict = rules::judged(&request, &original, &ours);
            tally.note(&request, fixed, verdict);
            if verdict == Verdict::Unlisted {
                return Ok(Some(Difference { request, original, ours }));
            }
        }
        if let Some(Made { request, .. }) = unanswered {
            let place = tally.calls + 1;
            return Err(format!(
                "the program ends before its answer to call {place}: {}",
                show::call(&request)
            ));
        }
        progress(tally.calls);
    }
    Ok(None)
}

fn progress(calls: u64) {
    if calls % (BLOCK as u64 * 256) == 0 && std::io::stderr().is_terminal() {
        eprintln!("  {calls} calls");
    }
}

/// Shows a difference at its smallest, and how to see it again.
fn explain(part: Part, command: &[String], place: u64, found: Difference) {
    println!(
        "call {place} {} of seed {} differs, and it is no listed departure: {}",
        part.name(),
        part.seed,
        show::call(&found.request)
    );
    let Difference { request, original, ours } = shrink::smallest(command, found);
    println!("the smallest such call that was found:");
    println!("  call      {}", show::call(&request));
    println!("  map       {}", show::map_and_slots(&request.map));
    println!("  original  {}", show::outcome(&request.map, &original.answer, &original.map));
    println!("  ours      {}", show::outcome(&request.map, &ours.answer, &ours.map));
    match rules::due(&request, &original) {
        Some(due) if due == (ours.answer, &ours.map) => {
            println!("  expected  ours; but no departure says this of the original");
        }
        Some((answer, map)) => println!("  expected  {}", show::outcome(&request.map, &answer, map)),
        None => println!("  expected  a refusal; but the paper has none for this call"),
    }
    let (calls, third) = if part.third { (0, place) } else { (place, 0) };
    println!("again: tests/compare-original --seed {} --calls {calls} --third {third}", part.seed);
}

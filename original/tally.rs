//! What was seen: the calls of each kind, those without an answer of the original, the departures, and the kinds of unsound
//! maps.

use crate::calls::{Layout, Op, Request};
use crate::departures::{LIST, OF_MAPS};
use crate::rules::Verdict;
use crate::unsound;
use std::collections::BTreeMap;
use std::fmt;

#[derive(Default)]
pub struct Tally {
    pub calls: u64,
    kinds: BTreeMap<u8, Kind>,
    missing: BTreeMap<(u8, &'static str), u64>,
    not_found: BTreeMap<u64, u64>,
    departures: [u64; LIST.len()],
    unsound: BTreeMap<unsound::Kind, BTreeMap<u8, Seen>>,
}

/// A kind of call: how many were made, and to how many both gave the same answer and the same map.
struct Kind {
    name: String,
    calls: u64,
    same: u64,
}

/// How many calls were made on a kind of map, and how many of them are made in every run.
#[derive(Default)]
struct Seen {
    calls: u64,
    fixed: u64,
}

impl Tally {
    /// Counts a call, and as fixed one that is made in every run.
    pub fn note(&mut self, request: &Request, fixed: bool, verdict: Verdict) {
        let code = request.op.code();
        self.calls += 1;
        let kind =
            self.kinds.entry(code).or_insert_with(|| Kind { name: request.op.name(), calls: 0, same: 0 });
        kind.calls += 1;
        match verdict {
            Verdict::Same => kind.same += 1,
            Verdict::Missing(reason) => *self.missing.entry((code, reason)).or_default() += 1,
            Verdict::NotFound(number) => *self.not_found.entry(number).or_default() += 1,
            Verdict::Departure(rule) => self.departures[rule] += 1,
            Verdict::Unlisted => {}
        }
        let Op::Slots(Layout::Tree | Layout::InPlace | Layout::Third, _) = request.op else { return };
        if let Some(kind) = unsound::Kind::of(&request.map) {
            let seen = self.unsound.entry(kind).or_default().entry(code).or_default();
            seen.calls += 1;
            seen.fixed += u64::from(fixed);
        }
    }
}

impl Tally {
    /// The kinds of call and of departure of which nothing was seen, by name, among those of the third level or
    /// among those of all else; and the kinds of unsound map that no fixed call of some name was made on.
    pub fn absent(&self, third: bool) -> Vec<String> {
        let ops = || Op::all().into_iter().filter(|op| matches!(op, Op::Slots(Layout::Third, _)) == third);
        let calls = ops().filter(|op| !self.kinds.contains_key(&op.code()));
        let departures = &LIST[..if third { OF_MAPS } else { LIST.len() }];
        let departures = departures.iter().zip(self.departures).filter(|(_, count)| *count == 0);
        let unsound = ops().flat_map(|op| {
            let due = if let Op::Slots(layout, _) = op { unsound::Kind::due(layout) } else { Vec::new() };
            due.into_iter().filter(move |kind| !self.is_fixed(op, kind)).map(move |kind| (op, kind))
        });
        let calls = calls.map(Op::name).chain(departures.map(|((name, _), _)| name.to_string()));
        calls
            .chain(unsound.map(|(op, kind)| format!("{} in every run with {}", op.name(), kind.name())))
            .collect()
    }

    /// Whether a fixed call was made on such a map.
    fn is_fixed(&self, op: Op, kind: &unsound::Kind) -> bool {
        self.unsound.get(kind).and_then(|calls| calls.get(&op.code())).is_some_and(|seen| seen.fixed > 0)
    }
}

impl fmt::Display for Tally {
    fn fmt(&self, to: &mut fmt::Formatter) -> fmt::Result {
        let same: u64 = self.kinds.values().map(|kind| kind.same).sum();
        writeln!(to, "the same answer and the same map: {same}")?;
        for Kind { name, calls, same } in self.kinds.values() {
            writeln!(to, "{same:12} of {calls} {name}")?;
        }
        writeln!(to, "without an answer of the original: {}", self.missing.values().sum::<u64>())?;
        for ((code, reason), count) in &self.missing {
            writeln!(to, "{count:12} {}: {reason}", self.kinds[code].name)?;
        }
        writeln!(to, "the original's None: {}", self.not_found.values().sum::<u64>())?;
        for (number, count) in &self.not_found {
            writeln!(to, "{count:12} are refusal {number}")?;
        }
        writeln!(to, "listed departures: {}", self.departures.iter().sum::<u64>())?;
        for ((name, _), count) in LIST.iter().zip(self.departures).filter(|(_, count)| *count > 0) {
            writeln!(to, "{count:12} {name}")?;
        }
        let unsound = self.unsound.iter().map(|(kind, seen)| {
            let sum = |of: fn(&Seen) -> u64| seen.values().map(of).sum::<u64>();
            (kind, sum(|seen| seen.calls), sum(|seen| seen.fixed))
        });
        writeln!(to, "on unsound maps: {}", unsound.clone().map(|(_, calls, _)| calls).sum::<u64>())?;
        for (kind, calls, fixed) in unsound {
            writeln!(to, "{calls:12} {}; {fixed} of them in every run", kind.name())?;
        }
        Ok(())
    }
}

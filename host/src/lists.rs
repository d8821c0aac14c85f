//! Lists of calls on one unit and copy, beside the Rust module and the plain machine of document 01: after every call
//! its number and all slices, and after each accepted hand-over the colours of some fragments.
#![cfg(oracle)]

mod run;
mod steps;
mod theirs;
mod typed;

use crate::boundary::{OFF, WRONG_SIZE};
use crate::forms::Checker;
use crate::patterns::Random;
use run::Run;
use steps::{Call, List};
use typed::Typed;

/// What was compared, and the smallest list found that differs.
#[derive(Default, Debug)]
pub struct Tally {
    pub lists: u64,
    pub calls: u64,
    /// calls by their kind: writes one by one and in lists, restores, saves, reads, cached reads and hand-overs
    pub writes: u64,
    pub write_lists: u64,
    pub restores: u64,
    pub saves: u64,
    pub reads: u64,
    pub cached_reads: u64,
    pub hand_overs: u64,
    /// calls that were accepted, off or not, and refusals by their number, then of 101
    pub accepted: u64,
    pub refused: [u64; 10],
    pub wrong_size: u64,
    /// caches that the caller made: of the file's registers with another block, and decoded anew
    pub foreign: u64,
    pub anew: u64,
    /// fragments shaded after hand-overs, where lit and where off, and those with a k other than 0 and 255
    pub lit: u64,
    pub off: u64,
    pub between: u64,
    /// calls of the same lists through the crate's types, and fragments shaded by them
    pub typed: u64,
    pub typed_fragments: u64,
    pub differ: u64,
    pub smallest: Option<String>,
}

impl Tally {
    fn count(&mut self, call: &Call) {
        self.calls += 1;
        *match call {
            Call::Write(..) => &mut self.writes,
            Call::Writes(..) => &mut self.write_lists,
            Call::Restore(..) | Call::RestoreSaved => &mut self.restores,
            Call::Save(..) => &mut self.saves,
            Call::Read => &mut self.reads,
            Call::CachedRead => &mut self.cached_reads,
            Call::HandOver(..) => &mut self.hand_overs,
        } += 1;
    }

    fn number(&mut self, number: u32) {
        *match number {
            0 | OFF => &mut self.accepted,
            WRONG_SIZE => &mut self.wrong_size,
            _ => &mut self.refused[number as usize],
        } += 1;
    }
}

/// How many lists that differ are made small.
const SHRUNK: u64 = 16;

/// A run of a list from fresh.
type Again<'a> = &'a dyn Fn(&List) -> Result<(), (usize, String)>;

/// A list through the boundary: the place of the call that differs, and how.
fn run(list: &List, checker: &Checker, tally: &mut Tally) -> Result<(), (usize, String)> {
    let mut run = Run::fresh(list, checker);
    list.steps.iter().enumerate().try_for_each(|(at, step)| run.step(step, tally).map_err(|what| (at, what)))
}

/// The lists with one thing less: a call, a pair of writes or a fragment; the last of them first.
fn smaller(list: &List) -> impl Iterator<Item = List> + '_ {
    (0..list.steps.len()).rev().flat_map(|at| {
        let mut parts = vec![list.clone()];
        parts[0].steps.remove(at);
        let count = match &list.steps[at].call {
            Call::Writes(pairs) => pairs.len() / 2,
            Call::HandOver(fragments) => fragments.len(),
            _ => 0,
        };
        parts.extend((0..count).map(|part| {
            let mut list = list.clone();
            match &mut list.steps[at].call {
                Call::Writes(pairs) => _ = pairs.drain(2 * part..2 * part + 2),
                Call::HandOver(fragments) => _ = fragments.remove(part),
                _ => {}
            }
            list
        }));
        parts
    })
}

/// The list without what a difference doesn't need, and the difference.
fn shrunk(mut list: List, at: usize, mut what: String, run: Again) -> (List, String) {
    list.steps.truncate(at + 1);
    loop {
        let found = smaller(&list).find_map(|list| run(&list).err().map(|(at, what)| (list, at, what)));
        let Some((next, at, other)) = found else {
            return (list, what);
        };
        (list, what) = (next, other);
        list.steps.truncate(at + 1);
    }
}

/// So many calls in lists of one to 400, each list from fresh.
pub fn compare(calls: u64, seed: u64) -> Tally {
    let (checker, mut r, mut tally) = (Checker::default(), Random(seed), Tally::default());
    let mut least = usize::MAX;
    while tally.calls < calls {
        let longest = (calls - tally.calls).min([8, 40, 400][r.below(3) as usize]);
        let list = List::draw(1 + r.below(longest as u32) as usize, &mut r);
        tally.lists += 1;
        let differing: [(Option<(usize, String)>, Again); 2] = [
            (run(&list, &checker, &mut tally).err(), &|list| run(list, &checker, &mut Tally::default())),
            (Typed::run(&list, &mut tally).err(), &|list| Typed::run(list, &mut Tally::default())),
        ];
        for (found, again) in differing {
            let Some((at, what)) = found else { continue };
            tally.differ += 1;
            if tally.differ <= SHRUNK {
                let (list, what) = shrunk(list.clone(), at, what, again);
                if list.steps.len() < least {
                    least = list.steps.len();
                    tally.smallest = Some(format!("{what}, in {list:X?}"));
                }
            }
        }
    }
    tally
}

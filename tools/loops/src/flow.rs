//! The loops of a function: where each instruction goes on, which others it always comes after, and what comes round.

use crate::decode::{decode, Sort};
use crate::object::{Function, Object};
use std::collections::{BTreeSet, HashMap};

pub struct Step {
    pub at: usize,
    pub sort: Sort,
    /// the function that it calls, or goes on to and does not come back from
    pub calls: Option<String>,
    next: Vec<usize>,
}

/// A loop: the steps in it, each of which leads to each of the others.
pub struct Loop {
    pub body: BTreeSet<usize>,
}

pub struct Flow {
    pub steps: Vec<Step>,
    pub loops: Vec<Loop>,
}

/// Whether the call that ends at a place is of the function itself: the compiler then writes the distance, and there is no relocation.
fn goes_to_start(code: &[u8], end: usize) -> bool {
    let distance = end.checked_sub(4).and_then(|at| code.get(at..end)?.try_into().ok()).map(i32::from_le_bytes);
    distance.is_some_and(|far| end.checked_add_signed(far as isize) == Some(0))
}

/// The steps of a function, with no way on yet, and the number of the step at each place.
fn steps(f: &Function) -> Result<(Vec<Step>, HashMap<usize, usize>), String> {
    let (mut steps, mut numbers, mut at) = (Vec::new(), HashMap::new(), 0);
    while at < f.code.len() {
        let rest = &f.code[at..];
        let unknown = || format!("{}: an instruction that is not known at {at:#x}: {:02x?}", f.name, &rest[..rest.len().min(8)]);
        let one = decode(rest).ok_or_else(unknown)?;
        let end = at + one.length;
        let calls = match one.sort {
            Sort::Calls | Sort::Jumps(_) | Sort::Branches(_) if one.length >= 5 => f.calls.get(&(end - 4)).cloned(),
            _ => None,
        };
        let calls = if one.sort == Sort::Calls && calls.is_none() && goes_to_start(&f.code, end) { Some(f.name.clone()) } else { calls };
        if one.sort == Sort::CallsAnywhere || (one.sort == Sort::Calls && calls.is_none()) {
            return Err(format!("{}: a call of an unknown function at {at:#x}", f.name));
        }
        numbers.insert(at, steps.len());
        steps.push(Step { at, sort: one.sort, calls, next: Vec::new() });
        at = end;
    }
    Ok((steps, numbers))
}

/// Where the jump of step k by a table goes: by the table whose address was taken last before it, in the same straight piece of code, or, where
/// that stands elsewhere, by any table of the function.
fn table(f: &Function, object: &Object, steps: &[Step], k: usize) -> Result<Vec<usize>, String> {
    let mut end = steps[k].at;
    for step in steps[..k].iter().rev() {
        if !matches!(step.sort, Sort::Plain | Sort::Stores | Sort::Divides | Sort::Branches(_)) {
            break;
        }
        // an address in the code stands in the last four bytes of its instruction
        if let Some(targets) = end.checked_sub(4).and_then(|at| f.tables.get(&at)).and_then(|t| object.targets.get(t)) {
            return Ok(targets.iter().map(|t| (t - f.start) as usize).collect());
        }
        end = step.at;
    }
    let all: BTreeSet<u64> = f.tables.values().filter_map(|t| object.targets.get(t)).flatten().copied().collect();
    if all.is_empty() {
        return Err(format!("{}: a jump by an unknown table at {:#x}", f.name, steps[k].at));
    }
    Ok(all.iter().map(|t| (t - f.start) as usize).collect())
}

/// The steps with their ways on.
fn linked(f: &Function, object: &Object) -> Result<Vec<Step>, String> {
    let (mut steps, numbers) = steps(f)?;
    for k in 0..steps.len() {
        let end = steps.get(k + 1).map_or(f.code.len(), |s| s.at);
        let mut goals = match steps[k].sort {
            Sort::Jumps(_) | Sort::Ends => vec![],
            Sort::Switches => table(f, object, &steps, k)?,
            _ => vec![end],
        };
        if let Sort::Jumps(far) | Sort::Branches(far) = steps[k].sort {
            if steps[k].calls.is_none() {
                goals.push(end.wrapping_add_signed(far as isize));
            }
        }
        let astray = || format!("{}: the way on from {:#x} leads between two instructions", f.name, steps[k].at);
        let reached = |goal| numbers.get(&goal).copied().ok_or_else(astray);
        let next = goals.into_iter().map(reached).collect::<Result<_, String>>()?;
        steps[k].next = next;
    }
    Ok(steps)
}

/// The steps that are reached from some within a set, each after all that it leads to, except where a way comes round.
fn order(ways: &[Vec<usize>], within: &BTreeSet<usize>, starts: impl Iterator<Item = usize>) -> Vec<usize> {
    let (mut found, mut seen) = (Vec::new(), BTreeSet::new());
    for start in starts.filter(|k| within.contains(k)) {
        let mut open = Vec::new();
        if seen.insert(start) {
            open.push((start, 0));
        }
        while let Some((k, tried)) = open.pop() {
            let Some(&to) = ways[k].get(tried) else {
                found.push(k);
                continue;
            };
            open.push((k, tried + 1));
            if within.contains(&to) && seen.insert(to) {
                open.push((to, 0));
            }
        }
    }
    found
}

/// The parts of a set of steps in which each step leads to each, itself too.
fn knots(next: &[Vec<usize>], from: &[Vec<usize>], within: &BTreeSet<usize>) -> Vec<BTreeSet<usize>> {
    let mut left = within.clone();
    let mut found = Vec::new();
    for k in order(next, within, within.iter().copied()).into_iter().rev() {
        let part: BTreeSet<usize> = order(from, &left, [k].into_iter()).into_iter().collect();
        left = &left - &part;
        if part.len() > 1 || (part.len() == 1 && next[k].contains(&k)) {
            found.push(part);
        }
    }
    found
}

/// The loops in a set of steps: each knot, and the loops that are left in it without the steps by which it is entered. Where it is entered by
/// several, those could hide a loop inside, so it must have none: one of the several is the answer where it has.
fn loops(next: &[Vec<usize>], from: &[Vec<usize>], within: &BTreeSet<usize>) -> Result<Vec<Loop>, usize> {
    let mut found = Vec::new();
    for body in knots(next, from, within) {
        let heads: BTreeSet<usize> = body.iter().copied().filter(|&k| k == 0 || from[k].iter().any(|p| !body.contains(p))).collect();
        let inner = loops(next, from, &(&body - &heads))?;
        match heads.first() {
            Some(head) if heads.len() > 1 && !inner.is_empty() => return Err(*head),
            _ => {}
        }
        found.extend(inner);
        found.push(Loop { body });
    }
    Ok(found)
}

/// The steps and the loops of a function. All of its code must be reached, but for what fills up space: else a way was missed.
pub fn flow(f: &Function, object: &Object) -> Result<Flow, String> {
    let steps = linked(f, object)?;
    if steps.is_empty() {
        return Err(format!("{}: no code", f.name));
    }
    let next: Vec<Vec<usize>> = steps.iter().map(|s| s.next.clone()).collect();
    let reached: BTreeSet<usize> = order(&next, &(0..steps.len()).collect(), [0].into_iter()).into_iter().collect();
    for (k, step) in steps.iter().enumerate() {
        if !reached.contains(&k) && !matches!(step.sort, Sort::Fills | Sort::Ends) {
            return Err(format!("{}: code that nothing leads to at {:#x}", f.name, step.at));
        }
    }
    let mut from = vec![Vec::new(); steps.len()];
    for &k in &reached {
        for &to in &next[k] {
            from[to].push(k);
        }
    }
    let hidden = |head: usize| format!("{}: a loop with several ways in, around others, at {:#x}", f.name, steps[head].at);
    let loops = loops(&next, &from, &reached).map_err(hidden)?;
    Ok(Flow { steps, loops })
}

impl Flow {
    /// The loops inside a loop.
    pub fn inside<'a>(&'a self, one: &'a Loop) -> impl Iterator<Item = &'a Loop> {
        self.loops.iter().filter(|other| other.body.len() < one.body.len() && other.body.is_subset(&one.body))
    }
}

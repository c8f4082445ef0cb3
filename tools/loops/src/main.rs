//! loops FILE: of each function in an archive or object file of x86-64 machine code, how many loops it has and where it divides.
//!
//! A line a function, under a heading, with tabs between: its name; its loops; those that draw; those that divide each time round; and how
//! many divisions stand in no loop, in loops around others, and in loops that draw or have none inside.
//!
//! A loop draws if it stores numbers of 16 bits, elsewhere than at the stack pointer, and no loop inside it does. It divides each time round
//! if it draws or has no loop inside, and a division stands in it. What it calls counts as standing in it.
//!
//! It fails where it cannot follow the code: an instruction or a jump that it does not know, or a call out of the file, but for the C library's
//! `memcpy` and `memset`, which an array that is copied or cleared comes to.

mod decode;
mod flow;
mod object;

use decode::Sort;
use flow::{flow, Flow, Loop};
use std::collections::{BTreeSet, HashMap};

/// What may be called out of the file: it moves bytes and divides nothing.
const MOVES_BYTES: [&str; 2] = ["memcpy", "memset"];

/// A function by its object file and its name.
type Name = (usize, String);

struct Code {
    flows: HashMap<Name, Flow>,
    order: Vec<Name>,
}

impl Code {
    fn read(file: &[u8]) -> Result<Code, String> {
        let mut code = Code { flows: HashMap::new(), order: Vec::new() };
        for (k, member) in object::members(file)?.into_iter().enumerate() {
            let object = object::object(member)?;
            for f in &object.functions {
                let name = (k, f.name.clone());
                code.order.push(name.clone());
                code.flows.insert(name, flow(f, &object)?);
            }
        }
        for name in &code.order {
            for step in code.flows[name].steps.iter() {
                if let Some(called) = step.calls.as_ref().filter(|c| !MOVES_BYTES.contains(&c.as_str())) {
                    code.find(name.0, called).ok_or_else(|| format!("{} calls {called}, which is not in the file", name.1))?;
                }
            }
        }
        Ok(code)
    }

    /// The function that an object file means by a name: its own, or another's.
    fn find(&self, k: usize, name: &str) -> Option<&Name> {
        self.order.iter().find(|n| n.0 == k && n.1 == name).or_else(|| self.order.iter().find(|n| n.1 == name))
    }

    /// The functions that some steps of a function call, and those that these call.
    fn called<'a>(&'a self, name: &Name, steps: impl Iterator<Item = usize>) -> BTreeSet<&'a Name> {
        let flow = &self.flows[name];
        let mut open: Vec<&Name> = steps.filter_map(|k| self.find(name.0, flow.steps[k].calls.as_ref()?)).collect();
        let mut found = BTreeSet::new();
        while let Some(next) = open.pop() {
            if found.insert(next) {
                open.extend(self.flows[next].steps.iter().filter_map(|s| self.find(next.0, s.calls.as_ref()?)));
            }
        }
        found
    }

    /// Whether a step is of a sort, or calls what has one of it.
    fn is(&self, name: &Name, k: usize, sort: Sort) -> bool {
        let has = |n: &&Name| self.flows[*n].steps.iter().any(|s| s.sort == sort);
        self.flows[name].steps[k].sort == sort || self.called(name, [k].into_iter()).iter().any(has)
    }

    fn has(&self, name: &Name, one: &Loop, sort: Sort) -> bool {
        one.body.iter().any(|&k| self.is(name, k, sort))
    }

    /// The loops inside a loop, each with its function: its own, and all of what it calls.
    fn inside<'a>(&'a self, name: &'a Name, one: &'a Loop) -> Vec<(&'a Name, &'a Loop)> {
        let called = self.called(name, one.body.iter().copied());
        let theirs = called.into_iter().flat_map(|n| self.flows[n].loops.iter().map(move |l| (n, l)));
        self.flows[name].inside(one).map(|l| (name, l)).chain(theirs).collect()
    }

    fn draws(&self, name: &Name, one: &Loop) -> bool {
        self.has(name, one, Sort::Stores) && !self.inside(name, one).iter().any(|(n, l)| self.has(n, l, Sort::Stores))
    }

    /// The line of a function.
    fn line(&self, name: &Name) -> String {
        let flow = &self.flows[name];
        let is_small = |l: &&Loop| self.draws(name, l) || self.inside(name, l).is_empty();
        let (small, around): (Vec<&Loop>, Vec<&Loop>) = flow.loops.iter().partition(is_small);
        let drawing = flow.loops.iter().filter(|l| self.draws(name, l)).count();
        let dividing = small.iter().filter(|l| self.has(name, l, Sort::Divides)).count();
        let mut divisions = [0; 3];
        for k in (0..flow.steps.len()).filter(|&k| flow.steps[k].sort == Sort::Divides) {
            let within = |loops: &[&Loop]| loops.iter().any(|l| l.body.contains(&k));
            divisions[if within(&small) { 2 } else { usize::from(within(&around)) }] += 1;
        }
        let numbers = [flow.loops.len(), drawing, dividing, divisions[0], divisions[1], divisions[2]];
        numbers.iter().fold(name.1.clone(), |line, n| format!("{line}\t{n}"))
    }
}

fn main() {
    let arguments: Vec<String> = std::env::args().skip(1).collect();
    let [path] = arguments.as_slice() else {
        eprintln!("usage: loops FILE");
        std::process::exit(2);
    };
    let code = std::fs::read(path).map_err(|e| e.to_string()).and_then(|file| Code::read(&file));
    match code {
        Ok(code) => {
            println!("function\tloops\tdrawing\tdividing\toutside\taround\tinside");
            code.order.iter().for_each(|name| println!("{}", code.line(name)));
        }
        Err(why) => {
            eprintln!("loops: {path}: {why}");
            std::process::exit(1);
        }
    }
}

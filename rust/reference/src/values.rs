//! Number 4: variables are read once they have a value on every path, and given one once.

use crate::file::{arguments, Goal, Procedure, Program};

/// A set of numbers from 1 to 64.
pub type Set = u64;

pub fn of(x: usize) -> Set {
    if (1..=64).contains(&x) {
        1 << (x - 1)
    } else {
        0
    }
}

pub fn all_of<'a>(xs: impl IntoIterator<Item = &'a usize>) -> Set {
    xs.into_iter().fold(0, |s, &x| s | of(x))
}

pub fn members(s: Set) -> impl Iterator<Item = usize> {
    (1..=64).filter(move |&x| s & of(x) != 0)
}

/// What a step reads and what it gives a value, in order.
pub fn access(program: &Program, goal: &Goal) -> (Vec<usize>, Vec<usize>) {
    match goal {
        Goal::Literal(x, _) => (vec![], vec![*x]),
        Goal::Sum(x, _, y, z) => (vec![*y, *z], vec![*x]),
        Goal::Assign(x, y) => (vec![*y], vec![*x]),
        Goal::Construct(x, _, a) => (arguments(a).to_vec(), vec![*x]),
        Goal::Print(y) => (vec![*y], vec![]),
        Goal::Test(y, z) => (vec![*y, *z], vec![]),
        Goal::Call(q, names) => {
            let callee = &program.procedures[*q];
            let of_mode =
                |m| callee.parameters().iter().zip(names).filter(|(&p, _)| callee.mode(p) == m).map(|(_, &a)| a).collect();
            (of_mode(1), of_mode(2))
        }
        _ => (vec![], vec![]),
    }
}

/// The variables with a value on every path that leads to a point, and those with one on some path.
#[derive(Clone, Copy)]
struct Known {
    every: Set,
    some: Set,
}

impl Known {
    fn give(self, xs: &[usize]) -> Option<Known> {
        let given = all_of(xs);
        let once = given.count_ones() as usize == xs.len();
        (once && given & self.some == 0).then_some(Known { every: self.every | given, some: self.some | given })
    }

    fn meet(self, other: Known) -> Known {
        Known { every: self.every & other.every, some: self.some | other.some }
    }
}

fn goals(program: &Program, gs: &[Goal], known: Known) -> Option<Known> {
    gs.iter().try_fold(known, |k, g| goal(program, g, k))
}

fn goal(program: &Program, g: &Goal, known: Known) -> Option<Known> {
    match g {
        Goal::Switch(x, arms) => {
            if known.every & of(*x) == 0 {
                return None;
            }
            let mut met: Option<Known> = None;
            for a in arms {
                let end = goals(program, &a.goals, known.give(arguments(&a.arguments))?)?;
                met = Some(met.map_or(end, |m| m.meet(end)));
            }
            met
        }
        Goal::If(y, z, a, b) => {
            if known.every & of(*y) == 0 || known.every & of(*z) == 0 {
                return None;
            }
            Some(goals(program, a, known)?.meet(goals(program, b, known)?))
        }
        // "The else part starts from what had a value .. before the try, the then part from what the condition ends with."
        Goal::Try(c, a, b) => {
            let yes = goals(program, a, goals(program, c, known)?)?;
            Some(yes.meet(goals(program, b, known)?))
        }
        _ => {
            let (reads, gives) = access(program, g);
            if all_of(&reads) & !known.every != 0 {
                return None;
            }
            known.give(&gives)
        }
    }
}

pub fn of_mode(p: &Procedure, mode: usize) -> Set {
    (1..=p.variables.len()).filter(|&x| p.mode(x) == mode).fold(0, |s, x| s | of(x))
}

pub fn values_ok(program: &Program) -> bool {
    program.procedures[0].parameters().is_empty()
        && program.procedures.iter().all(|p| {
            let ins = of_mode(p, 1);
            goals(program, &p.goals, Known { every: ins, some: ins }).is_some_and(|k| of_mode(p, 2) & !k.every == 0)
        })
}

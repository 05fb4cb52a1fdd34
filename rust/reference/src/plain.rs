//! "The plain run is fed the program's goals without creates and removes": values are whole terms, calls are calls, a failing test goes back by what was
//! kept. It shares nothing with the run in lent memory but the program.

use crate::file::{arguments, Goal, Procedure, Program};
use std::rc::Rc;

#[derive(Clone)]
enum Term {
    Number(i32),
    Made(usize, Rc<[Term]>),
}

impl Term {
    fn number(&self) -> i64 {
        let Term::Number(n) = self else { unreachable!("number 3 has passed") };
        *n as i64
    }
}

/// What a plain run printed, and whether it came to its end in the steps that it was given and with no sum out of range.
#[derive(Clone, Debug, PartialEq)]
pub struct Plain {
    pub printed: Vec<i32>,
    pub ended: bool,
}

/// Why goals are left off: a test fails, or the run goes no further.
enum Break {
    Failed,
    Stays,
}

struct Plainly<'a> {
    program: &'a Program,
    printed: Vec<i32>,
    steps: u64,
}

impl Plainly<'_> {
    fn goals(&mut self, goals: &[Goal], values: &mut Vec<Term>) -> Result<(), Break> {
        goals.iter().try_for_each(|g| self.goal(g, values))
    }

    fn goal(&mut self, goal: &Goal, values: &mut Vec<Term>) -> Result<(), Break> {
        if matches!(goal, Goal::Create(_) | Goal::Remove(_)) {
            return Ok(());
        }
        self.steps = self.steps.checked_sub(1).ok_or(Break::Stays)?;
        match goal {
            Goal::Literal(x, v) => values[*x] = Term::Number(*v as i16 as i32),
            Goal::Sum(x, o, y, z) => {
                let (y, z) = (values[*y].number(), values[*z].number());
                let sum = if *o == 0 { y + z } else { y - z };
                values[*x] = Term::Number(i32::try_from(sum).map_err(|_| Break::Stays)?);
            }
            Goal::Assign(x, y) => values[*x] = values[*y].clone(),
            Goal::Construct(x, f, a) => values[*x] = Term::Made(*f, arguments(a).iter().map(|&y| values[y].clone()).collect()),
            Goal::Switch(x, arms) => {
                let Term::Made(f, parts) = values[*x].clone() else { unreachable!("number 3 has passed") };
                for (&y, part) in arguments(&arms[f].arguments).iter().zip(&*parts) {
                    values[y] = part.clone();
                }
                return self.goals(&arms[f].goals, values);
            }
            Goal::If(y, z, a, b) => {
                let part = if values[*y].number() < values[*z].number() { a } else { b };
                return self.goals(part, values);
            }
            Goal::Try(c, a, b) => return self.attempt(c, a, b, values),
            Goal::Test(y, z) if values[*y].number() < values[*z].number() => {}
            Goal::Test(..) => return Err(Break::Failed),
            Goal::Call(q, names) => return self.call(*q, names, values),
            Goal::Print(y) => self.printed.push(values[*y].number() as i32),
            Goal::Create(_) | Goal::Remove(_) => {}
        }
        Ok(())
    }

    fn attempt(&mut self, c: &[Goal], a: &[Goal], b: &[Goal], values: &mut Vec<Term>) -> Result<(), Break> {
        let before = values.clone();
        match self.goals(c, values) {
            Ok(()) => self.goals(a, values),
            Err(Break::Failed) => {
                *values = before;
                self.goals(b, values)
            }
            stays => stays,
        }
    }

    fn call(&mut self, q: usize, names: &[usize], values: &mut [Term]) -> Result<(), Break> {
        let callee = &self.program.procedures[q];
        let mut own = nothing(callee);
        let pairs: Vec<(usize, usize)> = callee.parameters().into_iter().zip(names.iter().copied()).collect();
        for &(p, a) in pairs.iter().filter(|(p, _)| callee.mode(*p) == 1) {
            own[p] = values[a].clone();
        }
        self.goals(&callee.goals, &mut own)?;
        for &(p, a) in pairs.iter().filter(|(p, _)| callee.mode(*p) == 2) {
            values[a] = own[p].clone();
        }
        Ok(())
    }
}

fn nothing(p: &Procedure) -> Vec<Term> {
    vec![Term::Number(0); p.variables.len() + 1]
}

pub fn plain_run(program: &Program, steps: u64) -> Plain {
    let mut run = Plainly { program, printed: Vec::new(), steps };
    let entry = &program.procedures[0];
    let ended = run.goals(&entry.goals, &mut nothing(entry)).is_ok();
    Plain { printed: run.printed, ended }
}

//! Live variables, number 7's part at calls, and where creates and removes go.

use crate::file::{arguments, Arm, Goal, Procedure, Program};
use crate::regions::{effect, Facts};
use crate::values::{access, all_of, members, of, of_mode, Set};

struct Place<'a> {
    program: &'a Program,
    procedure: &'a Procedure,
    facts: Facts,
}

/// What is live before each of the goals, and after the last.
fn live_along(program: &Program, goals: &[Goal], after: Set) -> Vec<Set> {
    let mut found = vec![after];
    for g in goals.iter().rev() {
        found.push(live_before(program, g, *found.last().unwrap()));
    }
    found.reverse();
    found
}

fn live_before(program: &Program, goal: &Goal, after: Set) -> Set {
    match goal {
        Goal::Switch(x, arms) => {
            arms.iter().fold(of(*x), |s, a| s | (live_along(program, &a.goals, after)[0] & !all_of(arguments(&a.arguments))))
        }
        Goal::If(y, z, a, b) => of(*y) | of(*z) | live_along(program, a, after)[0] | live_along(program, b, after)[0],
        // "what the else part needs, or the condition and then part in turn"
        Goal::Try(c, a, b) => {
            let then = live_along(program, a, after)[0];
            live_along(program, c, then)[0] | live_along(program, b, after)[0]
        }
        _ => {
            let (reads, gives) = access(program, goal);
            (after & !all_of(&gives)) | all_of(&reads)
        }
    }
}

impl<'a> Place<'a> {
    fn new(program: &'a Program, procedure: &'a Procedure) -> Place<'a> {
        Place { program, procedure, facts: Facts::new(procedure) }
    }

    fn classes_ok(&self, goals: &[Goal], after: Set) -> bool {
        let live = live_along(self.program, goals, after);
        goals.iter().enumerate().all(|(n, g)| match g {
            Goal::Switch(_, arms) => arms.iter().all(|a| self.classes_ok(&a.goals, live[n + 1])),
            // a condition holds no call
            Goal::If(_, _, a, b) | Goal::Try(_, a, b) => self.classes_ok(a, live[n + 1]) && self.classes_ok(b, live[n + 1]),
            _ => {
                let e = effect(self.program, self.procedure, g);
                e.ends & self.facts.wanted(live[n + 1]) == 0 && e.bears & self.facts.wanted(live[n]) == 0 && e.unshared
            }
        })
    }

    /// The goals with creates and removes, and what is held after them.
    fn place(&self, goals: &[Goal], after: Set, mut held: Set) -> (Vec<Goal>, Set) {
        let live = live_along(self.program, goals, after);
        let mut out = Vec::new();
        let remove = |held: &mut Set, wanted: Set, out: &mut Vec<Goal>| {
            out.extend(members(*held & !wanted).map(Goal::Remove));
            *held &= wanted;
        };
        for (n, g) in goals.iter().enumerate() {
            let before = self.facts.wanted(live[n]);
            remove(&mut held, before, &mut out);
            match g {
                Goal::Switch(x, arms) => {
                    let mut end = held;
                    let mut placed = Vec::new();
                    for a in arms {
                        let (goals, held) = self.place(&a.goals, live[n + 1], held);
                        end = held;
                        placed.push(Arm { functor: a.functor, arguments: a.arguments, goals });
                    }
                    held = end;
                    out.push(Goal::Switch(*x, placed));
                }
                Goal::If(y, z, a, b) => {
                    let (yes, end) = self.place(a, live[n + 1], held);
                    let (no, _) = self.place(b, live[n + 1], held);
                    held = end;
                    out.push(Goal::If(*y, *z, yes, no));
                }
                Goal::Try(c, a, b) => {
                    // the condition ends with what the then part begins with
                    let then = live_along(self.program, a, live[n + 1])[0];
                    let (condition, begun) = self.place(c, then, held);
                    let (yes, end) = self.place(a, live[n + 1], begun);
                    let (no, _) = self.place(b, live[n + 1], held);
                    held = end;
                    out.push(Goal::Try(condition, yes, no));
                }
                _ => {
                    let e = effect(self.program, self.procedure, g);
                    let created = ((e.needs | self.facts.wanted(live[n + 1])) & !before) & !e.bears;
                    out.extend(members(created).map(Goal::Create));
                    out.push(g.clone());
                    held = ((held | created) & !e.ends) | e.bears;
                }
            }
        }
        remove(&mut held, self.facts.wanted(after), &mut out);
        (out, held)
    }
}

/// Number 7's part at calls.
pub fn call_classes_ok(program: &Program) -> bool {
    program.procedures.iter().all(|p| Place::new(program, p).classes_ok(&p.goals, of_mode(p, 2)))
}

pub fn annotated(program: &Program) -> Program {
    let procedure = |p: &Procedure| {
        let place = Place::new(program, p);
        let held = place.facts.dead | place.facts.kept;
        let (goals, _) = place.place(&p.goals, of_mode(p, 2), held);
        Procedure { variables: p.variables.clone(), regions: p.regions.clone(), goals }
    };
    Program { types: program.types.clone(), procedures: program.procedures.iter().map(procedure).collect() }
}

//! Number 8: the checker's rules along each path.

use crate::file::{arguments, Goal, Procedure, Program};
use crate::regions::{effect, Facts};
use crate::values::{access, all_of, members, of, of_mode, Set};

#[derive(Clone, Copy)]
struct State {
    held: Set,
    sound: Set,
}

struct Checker<'a> {
    program: &'a Program,
    procedure: &'a Procedure,
    facts: Facts,
}

impl Checker<'_> {
    /// "A variable given a value is sound if its whole reach is then held."
    fn give(&self, xs: Set, s: State) -> State {
        let sound = members(xs).filter(|&x| self.facts.reach[x] & !s.held == 0).fold(s.sound & !xs, |t, x| t | of(x));
        State { held: s.held, sound }
    }

    fn goals(&self, goals: &[Goal], s: State) -> Option<State> {
        goals.iter().try_fold(s, |s, g| self.goal(g, s))
    }

    /// "Arms end with equal held regions; sound afterwards is sound after every arm."
    fn join(&self, ends: Vec<State>) -> Option<State> {
        let first = *ends.first()?;
        ends.iter().try_fold(first, |m, e| (m.held == e.held).then_some(State { held: m.held, sound: m.sound & e.sound }))
    }

    fn goal(&self, goal: &Goal, s: State) -> Option<State> {
        match goal {
            Goal::Switch(x, arms) => {
                if s.sound & of(*x) == 0 {
                    return None;
                }
                let ends: Option<Vec<State>> =
                    arms.iter().map(|a| self.goals(&a.goals, self.give(all_of(arguments(&a.arguments)), s))).collect();
                self.join(ends?)
            }
            Goal::If(y, z, a, b) => {
                if s.sound & of(*y) == 0 || s.sound & of(*z) == 0 {
                    return None;
                }
                self.join(vec![self.goals(a, s)?, self.goals(b, s)?])
            }
            Goal::Try(c, a, b) => self.join(vec![self.goals(a, self.goals(c, s)?)?, self.goals(b, s)?]),
            _ => {
                let (reads, gives) = access(self.program, goal);
                let e = effect(self.program, self.procedure, goal);
                let allowed = all_of(&reads) & !s.sound == 0
                    && e.needs & !s.held == 0
                    && e.ends & self.facts.kept == 0
                    && e.bears & s.held == 0
                    && e.unshared;
                if !allowed {
                    return None;
                }
                let held = (s.held & !e.ends) | e.bears;
                let sound = members(s.sound).filter(|&x| self.facts.reach[x] & e.ends == 0).fold(0, |t, x| t | of(x));
                Some(self.give(all_of(&gives), State { held, sound }))
            }
        }
    }
}

pub fn rules_ok(program: &Program) -> bool {
    program.procedures.iter().all(|p| {
        let c = Checker { program, procedure: p, facts: Facts::new(p) };
        let start = State { held: c.facts.dead | c.facts.kept, sound: of_mode(p, 1) };
        c.goals(&p.goals, start).is_some_and(|s| s.held == c.facts.born | c.facts.kept && of_mode(p, 2) & !s.sound == 0)
    })
}

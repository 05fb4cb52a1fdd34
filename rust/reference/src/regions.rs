//! Reach, a call's mapping, number 5, and the sets of "Lifetimes".

use crate::file::{arguments, Goal, Procedure, Program};
use crate::values::{all_of, members, of, of_mode, Set};

/// All regions that edges lead to from region r, and r.
pub fn reach_from(p: &Procedure, r: usize) -> Set {
    let mut seen = 0;
    let mut waiting = vec![r];
    while let Some(r) = waiting.pop() {
        if r != 0 && seen & of(r) == 0 {
            seen |= of(r);
            waiting.extend(p.regions[r - 1].edges.iter().map(|e| e.target));
        }
    }
    seen
}

/// The facts of a procedure that lifetimes rest on.
pub struct Facts {
    pub reach: Vec<Set>,
    pub inputs: Set,
    pub outputs: Set,
    pub born: Set,
    pub dead: Set,
    pub kept: Set,
}

impl Facts {
    pub fn new(p: &Procedure) -> Facts {
        let reach: Vec<Set> = std::iter::once(0).chain((1..=p.variables.len()).map(|x| reach_from(p, p.home(x)))).collect();
        let all = |vars: Set| members(vars).fold(0, |s, x| s | reach[x]);
        let inputs = all(of_mode(p, 1));
        let outputs = all(of_mode(p, 2));
        let class = |c| (1..=p.regions.len()).filter(|&r| p.regions[r - 1].class == c).fold(0, |s, r| s | of(r));
        let kept = (inputs | outputs) & class(0);
        Facts { inputs, outputs, born: class(1), dead: class(2), kept, reach }
    }

    pub fn reach_all(&self, vars: Set) -> Set {
        members(vars).fold(0, |s, x| s | self.reach[x])
    }

    /// "the kept regions and the reach of the live variables"
    pub fn wanted(&self, live: Set) -> Set {
        self.kept | self.reach_all(live)
    }
}

/// The image of each region of the callee, 0 for none; nothing where a region has two.
pub fn mapping(caller: &Procedure, callee: &Procedure, names: &[usize]) -> Option<Vec<usize>> {
    let mut images = vec![0; callee.regions.len() + 1];
    let mut waiting: Vec<(usize, usize)> =
        callee.parameters().iter().zip(names).map(|(&p, &a)| (callee.home(p), caller.home(a))).collect();
    waiting.reverse();
    while let Some((r, u)) = waiting.pop() {
        if r == 0 || u == 0 {
            continue;
        }
        if images[r] == 0 {
            images[r] = u;
            let pairs = callee.regions[r - 1].edges.iter().zip(&caller.regions[u - 1].edges);
            waiting.extend(pairs.map(|(a, b)| (a.target, b.target)));
        } else if images[r] != u {
            return None;
        }
    }
    Some(images)
}

/// Whether the arguments lie where the edges of X's region say.
fn term_ok(p: &Procedure, x: usize, functor: usize, words: &[usize; 4]) -> bool {
    arguments(words).iter().enumerate().all(|(k, &a)| {
        let edges = &p.regions[p.home(x) - 1].edges;
        let target = edges.iter().find(|e| e.functor == functor && e.position == k + 1).map_or(0, |e| e.target);
        p.home(a) == target
    })
}

fn goals_ok(program: &Program, p: &Procedure, goals: &[Goal]) -> bool {
    goals.iter().all(|g| match g {
        Goal::Assign(x, y) => p.home(*x) == p.home(*y),
        Goal::Construct(x, f, a) => term_ok(p, *x, *f, a),
        Goal::Switch(x, arms) => arms.iter().all(|a| term_ok(p, *x, a.functor, &a.arguments) && goals_ok(program, p, &a.goals)),
        Goal::If(_, _, a, b) => goals_ok(program, p, a) && goals_ok(program, p, b),
        Goal::Try(c, a, b) => [c, a, b].into_iter().all(|part| goals_ok(program, p, part)),
        Goal::Call(q, names) => mapping(p, &program.procedures[*q], names).is_some(),
        _ => true,
    })
}

/// Number 5.
pub fn regions_ok(program: &Program) -> bool {
    program.procedures.iter().all(|p| goals_ok(program, p, &p.goals))
}

/// Number 7 for every program.
pub fn declared_classes_ok(program: &Program) -> bool {
    program.procedures.iter().all(|p| {
        let f = Facts::new(p);
        f.born & !(f.outputs & !f.inputs) == 0 && f.dead & !(f.inputs & !f.outputs) == 0
    })
}

/// What a step does to regions, and whether an image of a dead or born one is no other region's.
pub struct Effect {
    pub needs: Set,
    pub bears: Set,
    pub ends: Set,
    pub unshared: bool,
}

pub fn effect(program: &Program, p: &Procedure, goal: &Goal) -> Effect {
    let mut e = Effect { needs: 0, bears: 0, ends: 0, unshared: true };
    match goal {
        Goal::Construct(x, _, _) => e.needs = of(p.home(*x)),
        Goal::Create(r) => e.bears = of(*r),
        Goal::Remove(r) => {
            e.needs = of(*r);
            e.ends = of(*r);
        }
        Goal::Call(q, names) => {
            let callee = &program.procedures[*q];
            let facts = Facts::new(callee);
            let images = mapping(p, callee, names).expect("number 5 has passed");
            let image = |rs: Set| all_of(&members(rs).map(|r| images[r]).collect::<Vec<_>>());
            e.needs = image(facts.dead | facts.kept);
            e.bears = image(facts.born);
            e.ends = image(facts.dead);
            e.unshared = members(facts.dead | facts.born)
                .all(|r| members(facts.inputs | facts.outputs).all(|q| q == r || images[q] != images[r]));
        }
        _ => {}
    }
    e
}

//! Number 3: "a number out of range, a wrong type, count or order; a word past the arity not 0".

use crate::file::{Functor, Goal, Procedure, Program};

struct Scope<'a> {
    program: &'a Program,
    procedure: &'a Procedure,
}

impl Scope<'_> {
    fn is_variable(&self, x: usize) -> bool {
        x >= 1 && x <= self.procedure.variables.len()
    }

    fn ty(&self, x: usize) -> usize {
        self.procedure.variables[x - 1].ty
    }

    fn has_type(&self, ty: usize, x: usize) -> bool {
        self.is_variable(x) && self.ty(x) == ty
    }

    fn is_region(&self, r: usize) -> bool {
        r >= 1 && r <= self.procedure.regions.len()
    }

    fn is_region_of(&self, ty: usize, r: usize) -> bool {
        self.is_region(r) && self.procedure.regions[r - 1].ty == ty
    }

    fn arguments_ok(&self, f: &Functor, words: &[usize; 4]) -> bool {
        words.iter().enumerate().all(|(k, &a)| if k < f.arity { self.has_type(f.types[k], a) } else { a == 0 })
    }

    fn goals_ok(&self, goals: &[Goal]) -> bool {
        goals.iter().all(|g| self.goal_ok(g))
    }

    fn goal_ok(&self, goal: &Goal) -> bool {
        match goal {
            Goal::Literal(x, _) => self.has_type(0, *x),
            Goal::Sum(x, o, y, z) => *o <= 1 && [x, y, z].iter().all(|&&v| self.has_type(0, v)),
            Goal::Assign(x, y) => self.is_variable(*x) && self.has_type(self.ty(*x), *y),
            Goal::Construct(x, f, a) => {
                self.is_variable(*x) && self.program.functors(self.ty(*x)).get(*f).is_some_and(|f| self.arguments_ok(f, a))
            }
            Goal::Switch(x, arms) => {
                if !self.is_variable(*x) || self.ty(*x) == 0 {
                    return false;
                }
                let functors = self.program.functors(self.ty(*x));
                arms.len() == functors.len()
                    && arms
                        .iter()
                        .zip(functors)
                        .enumerate()
                        .all(|(n, (a, f))| a.functor == n && self.arguments_ok(f, &a.arguments) && self.goals_ok(&a.goals))
            }
            Goal::If(y, z, a, b) => self.has_type(0, *y) && self.has_type(0, *z) && self.goals_ok(a) && self.goals_ok(b),
            Goal::Try(c, a, b) => [c, a, b].into_iter().all(|part| self.goals_ok(part)),
            Goal::Test(y, z) => self.has_type(0, *y) && self.has_type(0, *z),
            Goal::Call(q, names) => {
                let Some(callee) = self.program.procedures.get(*q) else { return false };
                let parameters = callee.parameters();
                parameters.len() == names.len()
                    && parameters.iter().zip(names).all(|(&p, &a)| self.has_type(callee.variables[p - 1].ty, a))
            }
            Goal::Print(y) => self.has_type(0, *y),
            Goal::Create(r) | Goal::Remove(r) => self.is_region(*r),
        }
    }

    fn procedure_ok(&self) -> bool {
        let p = self.procedure;
        let types = self.program.types.len();
        p.variables.len() <= 64
            && p.regions.len() <= 64
            && p.variables.iter().all(|v| {
                v.mode <= 2
                    && v.ty <= types
                    && if self.program.has_regions(v.ty) { self.is_region_of(v.ty, v.region) } else { v.region == 0 }
            })
            && p.regions.iter().all(|r| {
                let mut places = Vec::new();
                for (f, functor) in self.program.functors(r.ty).iter().enumerate() {
                    for k in 0..functor.arity.min(4) {
                        if self.program.has_regions(functor.types[k]) {
                            places.push((f, k + 1, functor.types[k]));
                        }
                    }
                }
                self.program.has_regions(r.ty)
                    && r.class <= 2
                    && places.len() == r.edges.len()
                    && places
                        .iter()
                        .zip(&r.edges)
                        .all(|(p, e)| p.0 == e.functor && p.1 == e.position && self.is_region_of(p.2, e.target))
            })
            && self.goals_ok(&p.goals)
    }
}

pub fn typing_ok(program: &Program) -> bool {
    let types = program.types.len();
    let functor_ok =
        |f: &Functor| f.arity <= 4 && f.types.iter().enumerate().all(|(k, &t)| if k < f.arity { t <= types } else { t == 0 });
    types <= 64
        && program.types.iter().all(|t| !t.is_empty() && t.len() <= 32 && t.iter().all(functor_ok))
        && !program.procedures.is_empty()
        && program.procedures.len() <= 256
        && program.procedures.iter().all(|p| Scope { program, procedure: p }.procedure_ok())
}

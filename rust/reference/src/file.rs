//! "The file": words, numbers 1 and 2, and the program that a file stands for.

pub type Words = Vec<[u16; 8]>;

#[derive(Clone)]
pub struct Functor {
    pub arity: usize,
    pub types: [usize; 4],
}

#[derive(Clone)]
pub struct Variable {
    pub mode: usize,
    pub ty: usize,
    pub region: usize,
}

#[derive(Clone)]
pub struct Edge {
    pub functor: usize,
    pub position: usize,
    pub target: usize,
}

#[derive(Clone)]
pub struct Region {
    pub ty: usize,
    pub class: usize,
    pub edges: Vec<Edge>,
}

#[derive(Clone)]
pub struct Arm {
    pub functor: usize,
    pub arguments: [usize; 4],
    pub goals: Vec<Goal>,
}

#[derive(Clone)]
pub enum Goal {
    Literal(usize, u16),
    Sum(usize, usize, usize, usize),
    Assign(usize, usize),
    Construct(usize, usize, [usize; 4]),
    Switch(usize, Vec<Arm>),
    If(usize, usize, Vec<Goal>, Vec<Goal>),
    /// Condition, then part, else part (C-20).
    Try(Vec<Goal>, Vec<Goal>, Vec<Goal>),
    Test(usize, usize),
    Call(usize, Vec<usize>),
    Print(usize),
    Create(usize),
    Remove(usize),
}

#[derive(Clone)]
pub struct Procedure {
    pub variables: Vec<Variable>,
    pub regions: Vec<Region>,
    pub goals: Vec<Goal>,
}

#[derive(Clone)]
pub struct Program {
    pub types: Vec<Vec<Functor>>,
    pub procedures: Vec<Procedure>,
}

impl Program {
    /// The functors of a type, none of type 0.
    pub fn functors(&self, ty: usize) -> &[Functor] {
        ty.checked_sub(1).and_then(|t| self.types.get(t)).map_or(&[], |t| t)
    }

    /// C-14: "A type all of whose functors have arity 0 has no regions", as type 0 has none.
    pub fn has_regions(&self, ty: usize) -> bool {
        self.functors(ty).iter().any(|f| f.arity > 0)
    }

    pub fn is_annotated(&self) -> bool {
        fn any(goals: &[Goal]) -> bool {
            goals.iter().any(|g| match g {
                Goal::Create(_) | Goal::Remove(_) => true,
                Goal::Switch(_, arms) => arms.iter().any(|a| any(&a.goals)),
                Goal::If(_, _, a, b) => any(a) || any(b),
                Goal::Try(c, a, b) => any(c) || any(a) || any(b),
                _ => false,
            })
        }
        self.procedures.iter().any(|p| any(&p.goals))
    }
}

impl Procedure {
    /// The in and out variables in chain order.
    pub fn parameters(&self) -> Vec<usize> {
        (1..=self.variables.len()).filter(|&x| self.variables[x - 1].mode != 0).collect()
    }

    pub fn mode(&self, x: usize) -> usize {
        self.variables[x - 1].mode
    }

    /// The region of variable x, 0 for one of a type without regions.
    pub fn home(&self, x: usize) -> usize {
        self.variables[x - 1].region
    }
}

/// The arguments of a construct or an arm: words past the arity are 0.
pub fn arguments(words: &[usize; 4]) -> &[usize] {
    let n = words.iter().position(|&w| w == 0).unwrap_or(4);
    &words[..n]
}

/// Number 1.
pub fn words(bytes: &[u8]) -> Option<Words> {
    if bytes.len() < 16 || bytes.len() > 65536 || !bytes.len().is_multiple_of(16) {
        return None;
    }
    let words: Words = bytes.chunks(16).map(|r| std::array::from_fn(|k| u16::from_le_bytes([r[2 * k], r[2 * k + 1]]))).collect();
    (words[0][0] == 1 && words[0][3] as usize == words.len()).then_some(words)
}

/// What may stand in a chain.
#[derive(Clone, Copy, PartialEq)]
enum Chain {
    Types,
    Functors,
    Procedures,
    Variables,
    Regions,
    Edges,
    Goals,
    Arms,
    Arguments,
}

/// Whether a word is a number, is unused, or leads to a chain.
#[derive(Clone, Copy)]
enum Use {
    Number,
    Unused,
    First(Chain),
}

/// The chain that a kind stands in, and the use of its words 2 to 7.
fn shape(kind: u16) -> Option<(Chain, [Use; 6])> {
    use Chain::*;
    use Use::*;
    const U: Use = Unused;
    const N: Use = Number;
    Some(match kind {
        2 => (Types, [First(Functors), U, U, U, U, U]),
        3 => (Functors, [N, N, N, N, N, U]),
        4 => (Procedures, [First(Variables), First(Regions), First(Goals), U, U, U]),
        5 => (Variables, [N, N, N, U, U, U]),
        6 => (Regions, [N, N, First(Edges), U, U, U]),
        7 => (Edges, [N, N, N, U, U, U]),
        8 => (Goals, [N, N, U, U, U, U]),
        9 => (Goals, [N, N, N, N, U, U]),
        10 => (Goals, [N, N, U, U, U, U]),
        11 => (Goals, [N, N, N, N, N, N]),
        12 => (Goals, [N, First(Arms), U, U, U, U]),
        13 => (Arms, [First(Goals), N, N, N, N, N]),
        14 => (Goals, [N, N, First(Goals), First(Goals), U, U]),
        15 => (Goals, [N, First(Arguments), U, U, U, U]),
        16 => (Arguments, [N, U, U, U, U, U]),
        17..=19 => (Goals, [N, U, U, U, U, U]),
        20 => (Goals, [First(Goals), First(Goals), First(Goals), U, U, U]),
        21 => (Goals, [N, N, U, U, U, U]),
        _ => return None,
    })
}

/// Number 2.
pub fn form_ok(w: &Words) -> bool {
    let mut referred = vec![0; w.len()];
    let mut refer = |owner: usize, to: u16, chain: Chain| {
        let to = to as usize;
        if to == 0 {
            return true;
        }
        if to <= owner || to >= w.len() {
            return false;
        }
        referred[to] += 1;
        matches!(shape(w[to][0]), Some((c, _)) if c == chain)
    };
    if w[0][4..].iter().any(|&x| x != 0) || !refer(0, w[0][1], Chain::Procedures) || !refer(0, w[0][2], Chain::Types) {
        return false;
    }
    for (i, r) in w.iter().enumerate().skip(1) {
        let Some((chain, uses)) = shape(r[0]) else { return false };
        if !refer(i, r[1], chain) {
            return false;
        }
        for (k, u) in uses.iter().enumerate() {
            let good = match u {
                Use::Number => true,
                Use::Unused => r[k + 2] == 0,
                Use::First(chain) => refer(i, r[k + 2], *chain),
            };
            if !good {
                return false;
            }
        }
    }
    referred[1..].iter().all(|&n| n == 1)
}

fn chain(w: &Words, first: u16) -> impl Iterator<Item = &[u16; 8]> + '_ {
    let mut i = first as usize;
    std::iter::from_fn(move || {
        (i != 0).then(|| {
            let record = &w[i];
            i = record[1] as usize;
            record
        })
    })
}

fn four(r: &[u16; 8], from: usize) -> [usize; 4] {
    std::array::from_fn(|k| r[from + k] as usize)
}

fn goals(w: &Words, first: u16) -> Vec<Goal> {
    let n = |x: u16| x as usize;
    chain(w, first)
        .map(|r| match r[0] {
            8 => Goal::Literal(n(r[2]), r[3]),
            9 => Goal::Sum(n(r[2]), n(r[3]), n(r[4]), n(r[5])),
            10 => Goal::Assign(n(r[2]), n(r[3])),
            11 => Goal::Construct(n(r[2]), n(r[3]), four(r, 4)),
            12 => {
                let arm = |a: &[u16; 8]| Arm { functor: n(a[3]), arguments: four(a, 4), goals: goals(w, a[2]) };
                Goal::Switch(n(r[2]), chain(w, r[3]).map(arm).collect())
            }
            14 => Goal::If(n(r[2]), n(r[3]), goals(w, r[4]), goals(w, r[5])),
            15 => Goal::Call(n(r[2]), chain(w, r[3]).map(|a| n(a[2])).collect()),
            17 => Goal::Print(n(r[2])),
            18 => Goal::Create(n(r[2])),
            19 => Goal::Remove(n(r[2])),
            20 => Goal::Try(goals(w, r[2]), goals(w, r[3]), goals(w, r[4])),
            _ => Goal::Test(n(r[2]), n(r[3])),
        })
        .collect()
}

/// The program of a file that passed number 2.
pub fn read(w: &Words) -> Program {
    let n = |x: u16| x as usize;
    let functor = |r: &[u16; 8]| Functor { arity: n(r[2]), types: four(r, 3) };
    let edge = |r: &[u16; 8]| Edge { functor: n(r[2]), position: n(r[3]), target: n(r[4]) };
    let region = |r: &[u16; 8]| Region { ty: n(r[2]), class: n(r[3]), edges: chain(w, r[4]).map(edge).collect() };
    let variable = |r: &[u16; 8]| Variable { mode: n(r[2]), ty: n(r[3]), region: n(r[4]) };
    Program {
        types: chain(w, w[0][2]).map(|t| chain(w, t[2]).map(functor).collect()).collect(),
        procedures: chain(w, w[0][1])
            .map(|p| Procedure {
                variables: chain(w, p[2]).map(variable).collect(),
                regions: chain(w, p[3]).map(region).collect(),
                goals: goals(w, p[4]),
            })
            .collect(),
    }
}

/// Number 2's rule of C-20: "Conditions hold no call, print, if or try; tests stand only in conditions". An arm of a switch in a condition is part of it.
pub fn conditions_ok(program: &Program) -> bool {
    fn outside(goals: &[Goal]) -> bool {
        goals.iter().all(|g| match g {
            Goal::Test(..) => false,
            Goal::Switch(_, arms) => arms.iter().all(|a| outside(&a.goals)),
            Goal::If(_, _, a, b) => outside(a) && outside(b),
            Goal::Try(c, a, b) => inside(c) && outside(a) && outside(b),
            _ => true,
        })
    }
    fn inside(goals: &[Goal]) -> bool {
        goals.iter().all(|g| match g {
            Goal::Call(..) | Goal::Print(_) | Goal::If(..) | Goal::Try(..) => false,
            Goal::Switch(_, arms) => arms.iter().all(|a| inside(&a.goals)),
            _ => true,
        })
    }
    program.procedures.iter().all(|p| outside(&p.goals))
}

/// Records in written order; a chain's records are linked as they are written.
struct Writer {
    words: Vec<[usize; 8]>,
}

impl Writer {
    /// Writes a chain, each record by `put`, which returns its place. Returns the first place, 0 for none.
    fn chain<T>(&mut self, items: &[T], put: impl Fn(&mut Writer, &T) -> usize) -> usize {
        let mut first = 0;
        let mut last = 0;
        for item in items {
            let at = put(self, item);
            if last == 0 {
                first = at;
            } else {
                self.words[last][1] = at;
            }
            last = at;
        }
        first
    }

    fn record(&mut self, words: [usize; 7]) -> usize {
        let [kind, a, b, c, d, e, f] = words;
        self.words.push([kind, 0, a, b, c, d, e, f]);
        self.words.len() - 1
    }

    fn goals(&mut self, goals: &[Goal]) -> usize {
        self.chain(goals, |w, g| w.goal(g))
    }

    fn goal(&mut self, goal: &Goal) -> usize {
        match goal {
            Goal::Literal(x, v) => self.record([8, *x, *v as usize, 0, 0, 0, 0]),
            Goal::Sum(x, o, y, z) => self.record([9, *x, *o, *y, *z, 0, 0]),
            Goal::Assign(x, y) => self.record([10, *x, *y, 0, 0, 0, 0]),
            Goal::Construct(x, f, a) => self.record([11, *x, *f, a[0], a[1], a[2], a[3]]),
            Goal::Print(y) => self.record([17, *y, 0, 0, 0, 0, 0]),
            Goal::Create(r) => self.record([18, *r, 0, 0, 0, 0, 0]),
            Goal::Remove(r) => self.record([19, *r, 0, 0, 0, 0, 0]),
            Goal::Test(y, z) => self.record([21, *y, *z, 0, 0, 0, 0]),
            Goal::Call(q, names) => {
                let at = self.record([15, *q, 0, 0, 0, 0, 0]);
                self.words[at][3] = self.chain(names, |w, a| w.record([16, *a, 0, 0, 0, 0, 0]));
                at
            }
            Goal::Switch(x, arms) => {
                let at = self.record([12, *x, 0, 0, 0, 0, 0]);
                self.words[at][3] = self.chain(arms, |w, a| {
                    let b = a.arguments;
                    let at = w.record([13, 0, a.functor, b[0], b[1], b[2], b[3]]);
                    w.words[at][2] = w.goals(&a.goals);
                    at
                });
                at
            }
            Goal::If(y, z, a, b) => {
                let at = self.record([14, *y, *z, 0, 0, 0, 0]);
                self.words[at][4] = self.goals(a);
                self.words[at][5] = self.goals(b);
                at
            }
            Goal::Try(c, a, b) => {
                let at = self.record([20, 0, 0, 0, 0, 0, 0]);
                for (word, part) in [c, a, b].into_iter().enumerate() {
                    self.words[at][word + 2] = self.goals(part);
                }
                at
            }
        }
    }

    fn procedure(&mut self, p: &Procedure) -> usize {
        let at = self.record([4, 0, 0, 0, 0, 0, 0]);
        self.words[at][2] = self.chain(&p.variables, |w, v| w.record([5, v.mode, v.ty, v.region, 0, 0, 0]));
        self.words[at][3] = self.chain(&p.regions, |w, r| {
            let at = w.record([6, r.ty, r.class, 0, 0, 0, 0]);
            w.words[at][4] = w.chain(&r.edges, |w, e| w.record([7, e.functor, e.position, e.target, 0, 0, 0]));
            at
        });
        self.words[at][4] = self.goals(&p.goals);
        at
    }
}

/// The bytes of a program in written order: "a record is followed by what its other reference words lead to, in word order, and last by what w1 leads to."
pub fn written(program: &Program) -> Vec<u8> {
    let mut w = Writer { words: Vec::new() };
    w.record([1, 0, 0, 0, 0, 0, 0]);
    w.words[0][2] = w.chain(&program.types, |w, t| {
        let at = w.record([2, 0, 0, 0, 0, 0, 0]);
        w.words[at][2] = w.chain(t, |w, f| w.record([3, f.arity, f.types[0], f.types[1], f.types[2], f.types[3], 0]));
        at
    });
    w.words[0][1] = w.chain(&program.procedures, |w, p| w.procedure(p));
    w.words[0][3] = w.words.len();
    w.words.iter().flatten().flat_map(|&x| (x as u16).to_le_bytes()).collect()
}

//! Random job files that pass numbers 1 to 5, most of them: types, procedures with families of regions, goals by what has a value.
//!
//! A family is a set of regions of a procedure that has one region for each type that has any, its edges lead to its own regions alone. Variables lie in a
//! family, so that terms fit their edges; a call maps each family of the callee to one of the caller. Some types have constants only, and so no regions;
//! now and then a file gives such a type one. Some files have a procedure that gives the lowest and the highest number, and many sums, so that these come
//! out at the ends of the range and past them. What no chain of calls from the entry reaches is called in the end, in most files; the others keep it
//! and are refused with 17. Conditions of tries have tests, in arms of their switches too; in some files any goal stands in conditions and tests stand
//! anywhere, which is refused with 2.
use crate::random::Random;

const PROCEDURE: u16 = 4;
const LITERAL: u16 = 8;
const SUM: u16 = 9;
const ASSIGN: u16 = 10;
const CONSTRUCT: u16 = 11;
const SWITCH: u16 = 12;
const ARM: u16 = 13;
const IF: u16 = 14;
const CALL: u16 = 15;
const ARGUMENT: u16 = 16;
const PRINT: u16 = 17;
const CREATE: u16 = 18;
const REMOVE: u16 = 19;
const TRY: u16 = 20;
const TEST: u16 = 21;

/// A record's kind and words, each a number or the chain that it leads to.
enum Word {
    Number(u16),
    Chain(Vec<Node>),
}

struct Node(u16, Vec<Word>);

fn node(kind: u16, words: &[u16]) -> Node {
    Node(kind, words.iter().map(|&w| Word::Number(w)).collect())
}

fn call_of(q: usize, names: &[u16]) -> Node {
    let arguments = names.iter().map(|&n| node(ARGUMENT, &[n])).collect();
    Node(CALL, vec![Word::Number(q as u16), Word::Chain(arguments)])
}

/// The chains of goals inside a goal, without a try's condition, which holds no call.
fn parts(Node(kind, words): &mut Node) -> Vec<&mut Vec<Node>> {
    let chains = words.iter_mut().filter_map(|w| if let Word::Chain(c) = w { Some(c) } else { None });
    match *kind {
        SWITCH => chains.flatten().flat_map(parts).collect(),
        ARM | IF => chains.collect(),
        TRY => chains.skip(1).collect(),
        _ => Vec::new(),
    }
}

/// The procedures that goals call, in their parts too.
fn called(goals: &[Node]) -> Vec<usize> {
    let mut found = Vec::new();
    for Node(kind, words) in goals {
        for word in words {
            match word {
                Word::Chain(inside) => found.extend(called(inside)),
                Word::Number(q) if *kind == CALL => found.push(*q as usize),
                Word::Number(_) => {}
            }
        }
    }
    found
}

/// The procedures that chains of calls from the entry reach.
fn reached(bodies: &[Vec<Node>]) -> Vec<usize> {
    let mut found = vec![0];
    let mut seen = 0;
    while seen < found.len() {
        for q in called(&bodies[found[seen]]) {
            if !found.contains(&q) {
                found.push(q);
            }
        }
        seen += 1;
    }
    found
}

struct Variable {
    mode: u16,
    ty: u16,
    family: usize,
}

struct Procedure {
    variables: Vec<Variable>,
    families: usize,
}

/// What a file gets wrong about a type of constants only.
#[derive(Clone, Copy, PartialEq)]
enum Slip {
    /// All of it as before C-14: regions, edges and region words.
    AsBefore,
    /// A region that nothing lies in.
    Region,
    /// Edges, to the region that holds the term.
    Edges,
    /// A variable's region word.
    Variable,
}

const SLIPS: [Slip; 4] = [Slip::AsBefore, Slip::Region, Slip::Edges, Slip::Variable];

pub struct Generator<'a> {
    random: &'a mut Random,
    slip: Option<Slip>,
    types: Vec<Vec<Vec<u16>>>,
    procedures: Vec<Procedure>,
    /// The procedure that gives the lowest and the highest number, in files that have one.
    ends: Option<usize>,
    /// Whether calls lead to later procedures mostly, so that it is not the frames that end the run.
    onward: bool,
    /// Whether goals stand in a condition, and whether the file takes no heed of it.
    inside: bool,
    heedless: bool,
    /// The procedure at hand.
    own: usize,
    budget: usize,
}

impl Generator<'_> {
    fn types(&mut self) {
        let n = 1 + self.random.below(3);
        for _ in 0..n {
            if self.random.once_in(4) {
                let constants = 1 + if self.random.once_in(8) { self.random.below(32) } else { self.random.below(4) };
                self.types.push(vec![Vec::new(); constants]);
                continue;
            }
            let mut functors = Vec::new();
            for _ in 0..1 + self.random.below(3) {
                let arity = self.random.below(4);
                functors.push((0..arity).map(|_| self.random.below(n + 1) as u16).collect());
            }
            let at = self.random.below(functors.len() + 1);
            functors.insert(at, Vec::new());
            self.types.push(functors);
        }
    }

    fn only_constants(&self, ty: u16) -> bool {
        ty != 0 && self.types[ty as usize - 1].iter().all(|f| f.is_empty())
    }

    fn has_regions(&self, ty: u16) -> bool {
        ty != 0 && (self.slip == Some(Slip::AsBefore) || !self.only_constants(ty))
    }

    /// The types that have regions, in order: so lie the regions of a family.
    fn regioned(&self) -> Vec<u16> {
        (1..=self.types.len() as u16).filter(|&t| self.has_regions(t)).collect()
    }

    /// The region of a family's terms of a type, 0 where it has none.
    fn home(&self, ty: u16, family: usize) -> u16 {
        let regioned = self.regioned();
        regioned.iter().position(|&t| t == ty).map_or(0, |k| (family * regioned.len() + k + 1) as u16)
    }

    fn signatures(&mut self) {
        let n = 1 + if self.random.once_in(12) { self.random.below(20) } else { self.random.below(4) };
        self.ends = self.random.once_in(3).then_some(n);
        self.onward = self.ends.is_some() || !self.random.once_in(3);
        for q in 0..n {
            let families = 1 + self.random.below(3);
            let mut variables = Vec::new();
            if q > 0 {
                for _ in 0..self.random.below(5) {
                    let mode = 1 + self.random.below(2) as u16;
                    variables.push(self.variable(mode, families));
                }
            }
            self.procedures.push(Procedure { variables, families });
        }
        if self.ends.is_some() {
            let variables = (0..3).map(|_| Variable { mode: 2, ty: 0, family: 0 }).collect();
            self.procedures.push(Procedure { variables, families: 1 });
        }
    }

    fn variable(&mut self, mode: u16, families: usize) -> Variable {
        let number = self.ends.is_some() && self.random.once_in(3);
        let ty = if number { 0 } else { self.random.below(self.types.len() + 1) as u16 };
        Variable { mode, ty, family: self.random.below(families) }
    }

    /// The type and the family of a variable of the procedure at hand.
    fn own_variable(&self, x: u16) -> (u16, usize) {
        let v = &self.procedures[self.own].variables[x as usize - 1];
        (v.ty, v.family)
    }

    fn new_variable(&mut self, ty: u16, family: usize) -> Option<u16> {
        let variables = &mut self.procedures[self.own].variables;
        (variables.len() < 60).then(|| {
            variables.push(Variable { mode: 0, ty, family });
            variables.len() as u16
        })
    }

    /// A variable with a value, of that type and family.
    fn valued(&mut self, known: &[u16], ty: u16, family: usize) -> Option<u16> {
        let anywhere = !self.has_regions(ty);
        let own = &self.procedures[self.own].variables;
        let fit: Vec<u16> = known
            .iter()
            .copied()
            .filter(|&x| {
                let v = &own[x as usize - 1];
                v.ty == ty && (anywhere || v.family == family)
            })
            .collect();
        (!fit.is_empty()).then(|| fit[self.random.below(fit.len())])
    }

    /// Gives X a value by a goal, behind those that give its arguments theirs.
    fn give(&mut self, known: &[u16], x: u16, goals: &mut Vec<Node>) {
        let (ty, family) = self.own_variable(x);
        let goal = if ty == 0 {
            self.number(known, x)
        } else {
            match self.valued(known, ty, family) {
                Some(y) if self.random.once_in(5) => node(ASSIGN, &[x, y]),
                _ => self.term(known, x, ty, family, goals),
            }
        };
        goals.push(goal);
    }

    fn number(&mut self, known: &[u16], x: u16) -> Node {
        let two = (self.valued(known, 0, 0), self.valued(known, 0, 0));
        let sums = if self.ends.is_some() { 3 } else { 1 };
        match (self.random.below(3 + sums), two) {
            (k, (Some(y), Some(z))) if k < sums => node(SUM, &[x, self.random.below(2) as u16, y, z]),
            (k, (Some(y), _)) if k == sums => node(ASSIGN, &[x, y]),
            _ => node(LITERAL, &[x, [0, 1, 2, 65535, 32767, 32768][self.random.below(6)]]),
        }
    }

    /// A construct by any functor, or by a constant where arguments cannot be had.
    fn term(&mut self, known: &[u16], x: u16, ty: u16, family: usize, goals: &mut Vec<Node>) -> Node {
        let functors = self.types[ty as usize - 1].clone();
        let f = self.random.below(functors.len());
        let arguments: Option<Vec<u16>> = functors[f].iter().map(|&t| self.argument(known, t, family, goals)).collect();
        let constant = functors.iter().position(|f| f.is_empty()).expect("every type has a constant");
        let (f, arguments) = arguments.map_or((constant, Vec::new()), |a| (f, a));
        let mut words = vec![x, f as u16];
        words.extend(arguments);
        node(CONSTRUCT, &words)
    }

    /// A variable with a value, of that type and family: one that has it, or a new one while there is room for more goals.
    fn argument(&mut self, known: &[u16], ty: u16, family: usize, goals: &mut Vec<Node>) -> Option<u16> {
        let old = self.valued(known, ty, family);
        if self.budget == 0 || old.is_some() && !self.random.once_in(3) {
            return old;
        }
        self.budget -= 1;
        let x = self.new_variable(ty, family)?;
        self.give(known, x, goals);
        Some(x)
    }

    fn goals(&mut self, known: &mut Vec<u16>, deep: usize) -> Vec<Node> {
        let mut goals = Vec::new();
        if let Some(ends) = self.ends.filter(|_| !self.inside && self.random.once_in(2)) {
            goals.extend(self.call(ends, known));
        }
        for _ in 0..self.random.below(6) + if deep == 0 { 2 } else { 0 } {
            if self.budget == 0 {
                break;
            }
            self.budget -= 1;
            let goal = match self.random.below(11) {
                0 | 1 if deep < 4 => self.switch(known, deep),
                2..=5 if self.inside => self.test(known),
                2 if deep < 4 => self.branches(known, deep),
                3 if deep < 4 => self.attempt(known, deep),
                4 | 5 => self.callee().and_then(|q| self.call(q, known)),
                6 if self.heedless => self.test(known),
                6 if !self.inside => self.valued(known, 0, 0).map(|y| node(PRINT, &[y])),
                _ => {
                    let families = self.procedures[self.own].families;
                    let v = self.variable(0, families);
                    if let Some(x) = self.new_variable(v.ty, v.family) {
                        self.give(known, x, &mut goals);
                        known.push(x);
                    }
                    None
                }
            };
            goals.extend(goal);
        }
        goals
    }

    /// Goals of a part; all parts of a goal give `common` a value.
    fn part(&mut self, known: &[u16], common: Option<u16>, deep: usize) -> Vec<Node> {
        let mut inside = known.to_vec();
        let mut goals = self.goals(&mut inside, deep + 1);
        if let Some(x) = common {
            self.give(&inside, x, &mut goals);
        }
        goals
    }

    fn common(&mut self) -> Option<u16> {
        let families = self.procedures[self.own].families;
        let v = self.variable(0, families);
        self.random.once_in(2).then(|| self.new_variable(v.ty, v.family)).flatten()
    }

    fn switch(&mut self, known: &mut Vec<u16>, deep: usize) -> Option<Node> {
        let terms: Vec<u16> = known.iter().copied().filter(|&x| self.own_variable(x).0 != 0).collect();
        if terms.is_empty() {
            return None;
        }
        let x = terms[self.random.below(terms.len())];
        let (ty, family) = self.own_variable(x);
        let common = self.common();
        let mut arms = Vec::new();
        for (f, shape) in self.types[ty as usize - 1].clone().into_iter().enumerate() {
            let names: Option<Vec<u16>> = shape.iter().map(|&t| self.new_variable(t, family)).collect();
            let names = names?;
            let mut inside = known.clone();
            inside.extend(&names);
            let goals = self.part(&inside, common, deep);
            let mut words = vec![Word::Chain(goals), Word::Number(f as u16)];
            words.extend(names.iter().map(|&n| Word::Number(n)));
            arms.push(Node(ARM, words));
        }
        known.extend(common);
        Some(Node(SWITCH, vec![Word::Number(x), Word::Chain(arms)]))
    }

    fn branches(&mut self, known: &mut Vec<u16>, deep: usize) -> Option<Node> {
        let (y, z) = (self.valued(known, 0, 0)?, self.valued(known, 0, 0)?);
        let common = self.common();
        let yes = self.part(known, common, deep);
        let no = self.part(known, common, deep);
        known.extend(common);
        Some(Node(IF, vec![Word::Number(y), Word::Number(z), Word::Chain(yes), Word::Chain(no)]))
    }

    fn test(&mut self, known: &[u16]) -> Option<Node> {
        Some(node(TEST, &[self.valued(known, 0, 0)?, self.valued(known, 0, 0)?]))
    }

    /// A condition: its goals add to what is known. Half of them build a term where an older one lies, which the goal returned reads in the then part.
    fn condition(&mut self, known: &mut Vec<u16>, deep: usize) -> (Vec<Node>, Option<Node>) {
        let old: Vec<u16> = known.iter().copied().filter(|&x| self.has_regions(self.own_variable(x).0)).collect();
        self.inside = !self.heedless;
        let mut goals = self.goals(known, deep + 1);
        self.inside = false;
        let beside = (!old.is_empty() && self.random.once_in(2)).then(|| old[self.random.below(old.len())]);
        let read = beside.and_then(|y| self.build_beside(y, known, &mut goals));
        if !self.random.once_in(4) {
            goals.extend(self.test(known));
        }
        (goals, read)
    }

    /// Builds a term of y's type in y's region; returns a goal that reads y.
    fn build_beside(&mut self, y: u16, known: &mut Vec<u16>, goals: &mut Vec<Node>) -> Option<Node> {
        let (ty, family) = self.own_variable(y);
        let (x, again) = (self.new_variable(ty, family)?, self.new_variable(ty, family)?);
        let goal = self.term(known, x, ty, family, goals);
        goals.push(goal);
        known.push(x);
        Some(node(ASSIGN, &[again, y]))
    }

    /// A try: what its parts have in common is given a value by then and else part, or by condition and else part.
    fn attempt(&mut self, known: &mut Vec<u16>, deep: usize) -> Option<Node> {
        let mut begun = known.clone();
        let (mut condition, read) = self.condition(&mut begun, deep);
        let common = self.common();
        let early = common.filter(|_| self.random.once_in(3));
        if let Some(x) = early {
            self.give(&begun, x, &mut condition);
            begun.push(x);
        }
        let mut yes = self.part(&begun, common.filter(|_| early.is_none()), deep);
        yes.extend(read);
        let no = self.part(known, common, deep);
        known.extend(common);
        Some(Node(TRY, vec![Word::Chain(condition), Word::Chain(yes), Word::Chain(no)]))
    }

    /// Any procedure, or mostly a later one.
    fn callee(&mut self) -> Option<usize> {
        let first = if self.onward && !self.random.once_in(8) { self.own + 1 } else { 0 };
        let n = self.procedures.len() - first;
        (n > 0).then(|| first + self.random.below(n))
    }

    /// The parameters of a procedure: mode, type, and a family of the procedure at hand.
    fn parameters(&mut self, q: usize) -> Vec<(u16, u16, usize)> {
        let families = self.procedures[self.own].families;
        let onto: Vec<usize> = (0..self.procedures[q].families).map(|_| self.random.below(families)).collect();
        self.procedures[q].variables.iter().filter(|v| v.mode != 0).map(|v| (v.mode, v.ty, onto[v.family])).collect()
    }

    fn call(&mut self, q: usize, known: &mut Vec<u16>) -> Option<Node> {
        let mut names = Vec::new();
        let mut given = Vec::new();
        for (mode, ty, family) in self.parameters(q) {
            if mode == 1 {
                names.push(self.valued(known, ty, family)?);
            } else {
                let x = self.new_variable(ty, family)?;
                names.push(x);
                given.push(x);
            }
        }
        known.extend(given);
        Some(call_of(q, &names))
    }

    /// A call behind goals that give its in variables a value: it fits at any place.
    fn call_anywhere(&mut self, q: usize) -> Option<Vec<Node>> {
        let mut goals = Vec::new();
        let mut names = Vec::new();
        self.budget = 10;
        for (mode, ty, family) in self.parameters(q) {
            let x = self.new_variable(ty, family)?;
            if mode == 1 {
                self.give(&[], x, &mut goals);
            }
            names.push(x);
        }
        goals.push(call_of(q, &names));
        Some(goals)
    }

    /// Puts goals at any place of a chain, or of the parts of its goals.
    fn put(&mut self, chain: &mut Vec<Node>, goals: Vec<Node>) {
        let at = self.random.below(chain.len() + 1);
        let mut parts = chain.get_mut(at).map_or(Vec::new(), parts);
        if parts.is_empty() {
            chain.splice(at..at, goals);
        } else {
            let n = self.random.below(parts.len());
            self.put(parts.swap_remove(n), goals);
        }
    }

    /// Calls what is not reached: mostly behind the entry's goals, where classes fit, or anywhere in a procedure that is reached.
    fn reach_all(&mut self, bodies: &mut [Vec<Node>]) {
        for q in 1..bodies.len() {
            let found = reached(bodies);
            if found.contains(&q) {
                continue;
            }
            let behind = !self.random.once_in(4);
            self.own = if behind { 0 } else { found[self.random.below(found.len())] };
            let Some(goals) = self.call_anywhere(q) else { continue };
            let body = &mut bodies[self.own];
            if behind {
                body.extend(goals);
            } else {
                self.put(body, goals);
            }
        }
    }

    /// The body of `ends`: −32,768 doubled sixteen times, −1 less that, and a number beside them. Now and then its own last sum does not fit.
    fn ends_of_range(&mut self) -> Vec<Node> {
        let mut local = || self.new_variable(0, 0).expect("twenty numbers have room");
        let mut x = local();
        let mut goals = vec![node(LITERAL, &[x, 32768])];
        for _ in 0..15 {
            let twice = local();
            goals.push(node(SUM, &[twice, 0, x, x]));
            x = twice;
        }
        let y = local();
        let (operation, from) = if self.random.once_in(10) { (self.random.below(2) as u16, 0) } else { (1, 65535) };
        let beside = [0, 1, 65535][self.random.below(3)];
        goals.extend([node(SUM, &[1, 0, x, x]), node(LITERAL, &[y, from]), node(SUM, &[2, operation, y, 1])]);
        goals.push(node(LITERAL, &[3, beside]));
        goals
    }

    fn body(&mut self, q: usize) -> Vec<Node> {
        self.own = q;
        self.inside = false;
        if self.ends == Some(q) {
            return self.ends_of_range();
        }
        self.budget = 4 + self.random.below(if self.procedures.len() > 5 { 8 } else { 30 });
        let of_mode = |p: &Procedure, m: u16| -> Vec<u16> {
            (1..=p.variables.len() as u16).filter(|&x| p.variables[x as usize - 1].mode == m).collect()
        };
        let mut known = of_mode(&self.procedures[q], 1);
        let outs = of_mode(&self.procedures[q], 2);
        let mut goals = self.goals(&mut known, 0);
        for x in outs {
            self.give(&known, x, &mut goals);
            known.push(x);
        }
        goals
    }

    /// The edges of a family's region of type t.
    fn edges(&self, t: u16, family: usize) -> Vec<Node> {
        let mut edges = Vec::new();
        for (f, shape) in self.types[t as usize - 1].iter().enumerate() {
            for (k, &a) in shape.iter().enumerate() {
                let slip = self.slip == Some(Slip::Edges) && self.only_constants(a);
                let target = self.home(if slip { t } else { a }, family);
                if target != 0 {
                    edges.push(node(7, &[f as u16, k as u16 + 1, target]));
                }
            }
        }
        edges
    }

    /// The regions of a procedure: family by family, one for each type that has any, with classes that mostly fit.
    fn regions(&mut self, q: usize) -> Vec<Node> {
        let n = self.types.len();
        let mut regions = Vec::new();
        for family in 0..self.procedures[q].families {
            let reached = |mode: u16, p: &Procedure, types: &Vec<Vec<Vec<u16>>>| {
                let mut seen = vec![false; n + 1];
                let mut waiting: Vec<u16> =
                    p.variables.iter().filter(|v| v.mode == mode && v.ty != 0 && v.family == family).map(|v| v.ty).collect();
                while let Some(t) = waiting.pop() {
                    if t != 0 && !seen[t as usize] {
                        seen[t as usize] = true;
                        waiting.extend(types[t as usize - 1].iter().flatten());
                    }
                }
                seen
            };
            let ins = reached(1, &self.procedures[q], &self.types);
            let outs = reached(2, &self.procedures[q], &self.types);
            for t in self.regioned() {
                let mut class = match (ins[t as usize], outs[t as usize]) {
                    (false, true) if !self.random.once_in(4) => 1,
                    (true, false) if !self.random.once_in(4) => 2,
                    _ => 0,
                };
                if self.random.once_in(200) {
                    class = self.random.below(3) as u16;
                }
                let edges = self.edges(t, family);
                regions.push(Node(6, vec![Word::Number(t), Word::Number(class), Word::Chain(edges)]));
            }
        }
        if self.slip == Some(Slip::Region) {
            regions.extend((1..=n as u16).find(|&t| self.only_constants(t)).map(|t| node(6, &[t, 0, 0])));
        }
        regions
    }

    fn declared(&self, v: &Variable) -> Node {
        let slip = self.slip == Some(Slip::Variable) && self.only_constants(v.ty);
        node(5, &[v.mode, v.ty, if slip { 1 } else { self.home(v.ty, v.family) }])
    }

    fn program(&mut self) -> (Vec<Node>, Vec<Node>) {
        self.types();
        self.signatures();
        let mut bodies: Vec<Vec<Node>> = (0..self.procedures.len()).map(|q| self.body(q)).collect();
        if !self.random.once_in(6) {
            self.reach_all(&mut bodies);
        }
        let mut procedures = Vec::new();
        for (q, body) in bodies.into_iter().enumerate() {
            let regions = self.regions(q);
            let variables = self.procedures[q].variables.iter().map(|v| self.declared(v)).collect();
            procedures.push(Node(PROCEDURE, vec![Word::Chain(variables), Word::Chain(regions), Word::Chain(body)]));
        }
        let types = self
            .types
            .iter()
            .map(|t| {
                let functor = |f: &Vec<u16>| {
                    let mut words = vec![f.len() as u16];
                    words.extend(f);
                    node(3, &words)
                };
                Node(2, vec![Word::Chain(t.iter().map(functor).collect())])
            })
            .collect();
        (types, procedures)
    }
}

fn place(out: &mut Vec<[u16; 8]>, chain: Vec<Node>) -> u16 {
    let first = out.len() as u16;
    let mut last = None;
    let mut empty = true;
    for Node(kind, words) in chain {
        let at = out.len();
        if let Some(l) = last {
            let l: usize = l;
            out[l][1] = at as u16;
        }
        empty = false;
        last = Some(at);
        out.push([kind, 0, 0, 0, 0, 0, 0, 0]);
        for (k, w) in words.into_iter().enumerate() {
            let value = match w {
                Word::Number(n) => n,
                Word::Chain(c) => place(out, c),
            };
            out[at][k + 2] = value;
        }
    }
    if empty {
        0
    } else {
        first
    }
}

/// A job file without creates and removes.
pub fn job(random: &mut Random) -> Vec<u8> {
    let slip = random.once_in(5).then(|| SLIPS[random.below(SLIPS.len())]);
    let heedless = random.once_in(20);
    let (types, procedures) = Generator {
        random,
        slip,
        types: Vec::new(),
        procedures: Vec::new(),
        ends: None,
        onward: false,
        inside: false,
        heedless,
        own: 0,
        budget: 0,
    }
    .program();
    let mut out = vec![[1, 0, 0, 0, 0, 0, 0, 0]];
    out[0][2] = place(&mut out, types);
    out[0][1] = place(&mut out, procedures);
    bytes(&mut out)
}

/// The bytes of records, as many as the header then says.
fn bytes(rows: &mut [[u16; 8]]) -> Vec<u8> {
    rows[0][3] = rows.len() as u16;
    rows.iter().flatten().flat_map(|w| w.to_le_bytes()).collect()
}

fn records(file: &[u8]) -> Vec<[u16; 8]> {
    let row = |r: &[u8]| std::array::from_fn(|k| u16::from_le_bytes([r[2 * k], r[2 * k + 1]]));
    file.chunks_exact(16).map(row).collect()
}

/// A file with two parts of a try in each other's place, or with another region or the other kind at a create or a remove; as it is if it has neither.
fn with_other_goal(random: &mut Random, file: &[u8]) -> Vec<u8> {
    let mut rows = records(file);
    let some: Vec<usize> = (1..rows.len()).filter(|&i| [CREATE, REMOVE, TRY].contains(&rows[i][0])).collect();
    if !some.is_empty() {
        let row = &mut rows[some[random.below(some.len())]];
        if row[0] == TRY {
            row.swap(2 + random.below(3), 2 + random.below(3));
        } else if random.once_in(2) {
            row[0] = CREATE + REMOVE - row[0];
        } else {
            row[2] = 1 + random.below(4) as u16;
        }
    }
    bytes(&mut rows)
}

/// A file with one procedure more, which is not reached: it calls nothing, the entry or itself.
fn with_spare(random: &mut Random, file: &[u8]) -> Vec<u8> {
    let mut rows = records(file);
    let (at, number) = (rows.len() as u16, rows.iter().filter(|r| r[0] == PROCEDURE).count() as u16);
    rows.iter_mut().find(|r| r[0] == PROCEDURE && r[1] == 0).expect("the last procedure")[1] = at;
    let callee = [None, Some(0), Some(number)][random.below(3)];
    rows.push([PROCEDURE, 0, 0, 0, callee.map_or(0, |_| at + 1), 0, 0, 0]);
    rows.extend(callee.map(|q| [CALL, 0, q, 0, 0, 0, 0, 0]));
    bytes(&mut rows)
}

/// A file with a few words changed, with another goal, or with a procedure more.
pub fn damaged(random: &mut Random, file: &[u8]) -> Vec<u8> {
    if random.once_in(12) {
        return with_spare(random, file);
    }
    if random.once_in(4) {
        return with_other_goal(random, file);
    }
    let mut out = file.to_vec();
    for _ in 0..1 + random.below(2) {
        let records = out.len() / 16;
        if records == 0 {
            break;
        }
        let at = 16 * random.below(records) + 2 * random.below(8);
        let old = u16::from_le_bytes([out[at], out[at + 1]]);
        let new = match random.below(6) {
            0 => 0,
            1 => old.wrapping_add(1),
            2 => old.wrapping_sub(1),
            3 => random.below(records + 1) as u16,
            4 => random.below(22) as u16,
            _ => random.below(65536) as u16,
        };
        out[at..at + 2].copy_from_slice(&new.to_le_bytes());
    }
    if random.once_in(40) {
        out.truncate(random.below(out.len() + 1));
    }
    out
}

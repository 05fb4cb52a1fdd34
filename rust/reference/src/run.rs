//! "The machine": the accepted file's run in lent memory.

use crate::file::{arguments, Arm, Goal, Program};
use crate::regions::{mapping, Facts};
use crate::values::members;
use std::collections::BTreeMap;

/// Lent 32-bit words for each sort, and steps.
#[derive(Clone, Copy, Debug)]
pub struct Lent {
    pub cells: usize,
    pub regions: usize,
    pub frames: usize,
    pub prints: usize,
    pub steps: u64,
}

impl Lent {
    /// "The runner program has 1,024 cells, 1,024 regions, 100 frames, 1,024 prints, 1,000,000 steps."
    pub fn program() -> Lent {
        Lent { cells: 8 * 1024, regions: 2 * 1024, frames: 136 * 100, prints: 1024, steps: 1_000_000 }
    }
}

#[derive(Clone, Copy, Debug, PartialEq)]
pub enum Ending {
    Refused(u8),
    Finished,
    Stopped(u8),
}

/// The most of each sort held at once.
#[derive(Clone, Copy, Debug, Default, PartialEq)]
pub struct Most {
    pub cells: usize,
    pub regions: usize,
    pub frames: usize,
}

/// What is held after so many steps, and the procedure at work: the newest frame's.
#[derive(Clone, Copy, Debug, PartialEq)]
pub struct Held {
    pub steps: u64,
    pub cells: usize,
    pub regions: usize,
    pub frames: usize,
    pub procedure: usize,
}

#[derive(Clone, Debug, PartialEq)]
pub struct Run {
    pub ending: Ending,
    pub steps: u64,
    pub printed: Vec<i32>,
    pub most: Most,
    /// Regions made in all, without those of conditions that failed.
    pub made: usize,
}

impl Run {
    pub fn refused(number: u8) -> Run {
        Run { ending: Ending::Refused(number), steps: 0, printed: Vec::new(), most: Most::default(), made: 0 }
    }

    /// The lines that the runner program writes.
    pub fn lines(&self) -> String {
        let numbers: String = self.printed.iter().map(|n| format!("{n}\n")).collect();
        numbers
            + &match self.ending {
                Ending::Refused(n) => format!("refused {n}\n"),
                Ending::Finished => format!("finished {}\n", self.steps),
                Ending::Stopped(n) => format!("stopped {n} {}\n", self.steps),
            }
    }
}

#[derive(Clone, Copy)]
enum Value {
    Number(i32),
    Cell(usize),
    /// C-14: a functor of arity 0, "in the word itself".
    Constant(usize),
}

struct Cell {
    functor: usize,
    values: Vec<Value>,
    region: usize,
}

/// C-20: a condition that has begun and has not ended, in the newest frame.
struct Condition<'a> {
    /// How many of the frame's slices of goals lie behind it.
    behind: usize,
    then_part: &'a [Goal],
    else_part: &'a [Goal],
    /// What it removed, which still counts as held.
    cells_removed: usize,
    regions_removed: usize,
    before: Before,
}

/// "variables, regions and cells exactly as before the condition"
struct Before {
    values: Vec<Value>,
    regions: Vec<usize>,
    cells: usize,
    living: BTreeMap<usize, usize>,
    made: usize,
    cells_held: usize,
    regions_held: usize,
}

struct Frame<'a> {
    procedure: usize,
    /// The goals still to do: slices, the one to go on with last.
    goals: Vec<&'a [Goal]>,
    values: Vec<Value>,
    regions: Vec<usize>,
    call: &'a [usize],
}

struct Machine<'a> {
    program: &'a Program,
    facts: Vec<Facts>,
    frames: Vec<Frame<'a>>,
    cells: Vec<Cell>,
    /// The regions created and not removed, with how many cells each has; they are numbered from 1 as they are made.
    living: BTreeMap<usize, usize>,
    made: usize,
    /// What counts as held: also what a condition that has not ended removed.
    cells_held: usize,
    regions_held: usize,
    condition: Option<Condition<'a>>,
    printed: Vec<i32>,
    most: Most,
}

fn holds(words: usize, each: usize) -> usize {
    (words / each).min(65535)
}

impl<'a> Machine<'a> {
    fn frame(&mut self, procedure: usize, call: &'a [usize]) -> Frame<'a> {
        let p = &self.program.procedures[procedure];
        Frame {
            procedure,
            goals: vec![&p.goals],
            values: vec![Value::Number(0); p.variables.len() + 1],
            regions: vec![0; p.regions.len() + 1],
            call,
        }
    }

    /// "Whenever the newest frame has no goals left, it goes at once"; the then part begins once its condition has none left.
    fn settle(&mut self) {
        while let Some(f) = self.frames.last_mut() {
            while f.goals.last().is_some_and(|g| g.is_empty()) {
                f.goals.pop();
            }
            if let Some(c) = self.condition.take_if(|c| f.goals.len() <= c.behind) {
                f.goals.push(c.then_part);
                self.cells_held -= c.cells_removed;
                self.regions_held -= c.regions_removed;
            } else if f.goals.is_empty() {
                self.leave();
            } else {
                return;
            }
        }
    }

    /// The newest frame goes, and gives the call's arguments and regions what is theirs.
    fn leave(&mut self) {
        let gone = self.frames.pop().unwrap();
        let Some(caller) = self.frames.last_mut() else { return };
        let callee = &self.program.procedures[gone.procedure];
        let images = mapping(&self.program.procedures[caller.procedure], callee, gone.call).unwrap();
        for (&p, &a) in callee.parameters().iter().zip(gone.call) {
            if callee.mode(p) == 2 {
                caller.values[a] = gone.values[p];
            }
        }
        for r in members(self.facts[gone.procedure].born) {
            caller.regions[images[r]] = gone.regions[r];
        }
    }

    /// A try: the condition begins.
    fn open(&mut self, condition: &'a [Goal], then_part: &'a [Goal], else_part: &'a [Goal]) {
        let frame = self.frames.last_mut().unwrap();
        let before = Before {
            values: frame.values.clone(),
            regions: frame.regions.clone(),
            cells: self.cells.len(),
            living: self.living.clone(),
            made: self.made,
            cells_held: self.cells_held,
            regions_held: self.regions_held,
        };
        let behind = frame.goals.len();
        frame.goals.push(condition);
        self.condition = Some(Condition { behind, then_part, else_part, cells_removed: 0, regions_removed: 0, before });
    }

    /// A test fails: the else part begins.
    fn fail(&mut self) {
        let Condition { behind, else_part, before, .. } = self.condition.take().expect("number 2 has passed");
        let frame = self.frames.last_mut().unwrap();
        frame.goals.truncate(behind);
        frame.goals.push(else_part);
        frame.values = before.values;
        frame.regions = before.regions;
        self.cells.truncate(before.cells);
        self.living = before.living;
        self.made = before.made;
        self.cells_held = before.cells_held;
        self.regions_held = before.regions_held;
    }

    /// "A removal in a condition frees nothing before the then part begins, and until then its cells and place count as held."
    fn remove(&mut self, r: usize) {
        let region = self.frames.last().unwrap().regions[r];
        let cells = self.living.remove(&region).expect("removes a living region");
        if let Some(c) = &mut self.condition {
            c.cells_removed += cells;
            c.regions_removed += 1;
        } else {
            self.cells_held -= cells;
            self.regions_held -= 1;
        }
    }

    /// What is held once a step is done: the most of it before frames without goals go, for `watch` afterwards.
    fn note(&mut self, steps: u64, watch: &mut dyn FnMut(Held)) {
        self.most.cells = self.most.cells.max(self.cells_held);
        self.most.regions = self.most.regions.max(self.regions_held);
        self.most.frames = self.most.frames.max(self.frames.len());
        self.settle();
        let procedure = self.frames.last().map_or(0, |f| f.procedure);
        watch(Held { steps, cells: self.cells_held, regions: self.regions_held, frames: self.frames.len(), procedure });
    }

    /// The number of the stop before the next step, where it cannot be done.
    fn stop(&self, goal: &Goal, lent: &Lent) -> Option<u8> {
        match goal {
            Goal::Construct(_, _, a) if !arguments(a).is_empty() && self.cells_held >= holds(lent.cells, 8) => Some(11),
            Goal::Create(_) if self.regions_held >= holds(lent.regions, 2) => Some(12),
            Goal::Call(..) if self.frames.len() >= holds(lent.frames, 136) => Some(13),
            Goal::Print(_) if self.printed.len() >= holds(lent.prints, 1) => Some(14),
            Goal::Sum(_, o, y, z) if self.sum(*o, *y, *z).is_none() => Some(15),
            _ => None,
        }
    }

    fn number(&self, x: usize) -> i32 {
        match self.frames.last().unwrap().values[x] {
            Value::Number(n) => n,
            Value::Cell(_) | Value::Constant(_) => unreachable!("number 3 has passed"),
        }
    }

    /// A sum or a difference; C-15: none "outside −2,147,483,648 to 2,147,483,647".
    fn sum(&self, o: usize, y: usize, z: usize) -> Option<i32> {
        let (a, b) = (self.number(y) as i64, self.number(z) as i64);
        i32::try_from(if o == 0 { a + b } else { a - b }).ok()
    }

    fn step(&mut self, goal: &'a Goal) {
        let top = self.frames.len() - 1;
        match goal {
            Goal::Literal(x, v) => self.frames[top].values[*x] = Value::Number(*v as i16 as i32),
            Goal::Sum(x, o, y, z) => {
                let n = self.sum(*o, *y, *z).expect("the run stops before a sum out of range");
                self.frames[top].values[*x] = Value::Number(n);
            }
            Goal::Assign(x, y) => self.frames[top].values[*x] = self.frames[top].values[*y],
            Goal::Construct(x, f, a) if arguments(a).is_empty() => self.frames[top].values[*x] = Value::Constant(*f),
            Goal::Construct(x, f, a) => {
                let frame = &mut self.frames[top];
                let region = frame.regions[self.program.procedures[frame.procedure].home(*x)];
                let values = arguments(a).iter().map(|&y| frame.values[y]).collect();
                frame.values[*x] = Value::Cell(self.cells.len());
                self.cells.push(Cell { functor: *f, values, region });
                *self.living.get_mut(&region).expect("builds in a living region") += 1;
                self.cells_held += 1;
            }
            Goal::Switch(x, arms) => {
                let arm: &Arm = match self.frames[top].values[*x] {
                    Value::Number(_) => unreachable!("number 3 has passed"),
                    Value::Constant(f) => &arms[f],
                    Value::Cell(c) => {
                        let cell = &self.cells[c];
                        assert!(self.living.contains_key(&cell.region), "reads in a living region");
                        let arm = &arms[cell.functor];
                        for (&y, &v) in arguments(&arm.arguments).iter().zip(&cell.values) {
                            self.frames[top].values[y] = v;
                        }
                        arm
                    }
                };
                self.frames[top].goals.push(&arm.goals);
            }
            Goal::If(y, z, a, b) => {
                let part = if self.number(*y) < self.number(*z) { a } else { b };
                self.frames[top].goals.push(part);
            }
            Goal::Try(c, a, b) => self.open(c, a, b),
            Goal::Test(y, z) => {
                if self.number(*y) >= self.number(*z) {
                    self.fail();
                }
            }
            Goal::Call(q, names) => {
                let mut callee = self.frame(*q, names);
                let caller = &self.frames[top];
                let p = &self.program.procedures[*q];
                let images = mapping(&self.program.procedures[caller.procedure], p, names).unwrap();
                for (&p_, &a) in p.parameters().iter().zip(names) {
                    if p.mode(p_) == 1 {
                        callee.values[p_] = caller.values[a];
                    }
                }
                for r in members(self.facts[*q].dead | self.facts[*q].kept) {
                    callee.regions[r] = caller.regions[images[r]];
                }
                self.frames.push(callee);
            }
            Goal::Print(y) => {
                let n = self.number(*y);
                self.printed.push(n);
            }
            Goal::Create(r) => {
                self.made += 1;
                self.frames[top].regions[*r] = self.made;
                self.living.insert(self.made, 0);
                self.regions_held += 1;
            }
            Goal::Remove(r) => self.remove(*r),
        }
    }
}

/// The run of an accepted program; `watch` sees what is held at the start and after each step.
pub fn run(program: &Program, lent: &Lent, watch: &mut dyn FnMut(Held)) -> Run {
    let facts = program.procedures.iter().map(Facts::new).collect();
    let mut m = Machine {
        program,
        facts,
        frames: Vec::new(),
        cells: Vec::new(),
        living: BTreeMap::new(),
        made: 0,
        cells_held: 0,
        regions_held: 0,
        condition: None,
        printed: Vec::new(),
        most: Most::default(),
    };
    let mut steps = 0;
    let ending = 'run: {
        if holds(lent.frames, 136) == 0 {
            break 'run Ending::Stopped(13);
        }
        let entry = m.frame(0, &[]);
        m.frames.push(entry);
        m.note(0, watch);
        while let Some(frame) = m.frames.last() {
            if steps == lent.steps {
                break 'run Ending::Stopped(10);
            }
            let goal = &frame.goals.last().unwrap()[0];
            if let Some(number) = m.stop(goal, lent) {
                break 'run Ending::Stopped(number);
            }
            let rest = m.frames.last_mut().unwrap().goals.last_mut().unwrap();
            *rest = &rest[1..];
            m.step(goal);
            steps += 1;
            m.note(steps, watch);
        }
        Ending::Finished
    };
    Run { ending, steps, printed: m.printed, most: m.most, made: m.made }
}

//! Holds the proved library against the reference, in one process: the files of the gate, generated files and damaged ones.
//!
//!     cargo run --release -p differential -- FILES [SEED [TABLE.tsv ..]]
//!
//! FILES is how many are generated and damaged. A table has a file in hex in its second column (as the table of tools/pack-jobs). For each file it compares the
//! annotator in several sizes of lent memory, the checker, and the runner in several sizes of lent memory with old contents in it, and with just the steps
//! that it takes, one less and one more; answers, steps and printed numbers, and what stands in the lent memory afterwards.
use compare::random::Random;
use compare::{generate, packs};
use reference::Ending;
use std::collections::BTreeMap;

/// What lies in lent memory before a call.
const OLD_BYTE: u8 = 0xa5;
const OLD_WORD: u32 = 0xdead_beef;

/// The number of a refusal; no archive of this release has another error.
fn refusal(error: gumreta::Error) -> u8 {
    let gumreta::Error::Refused(refusal) = error else { panic!("{error}") };
    refusal.number()
}

#[derive(Default)]
struct Tally {
    files: usize,
    calls: usize,
    differences: usize,
    answers: BTreeMap<String, usize>,
}

impl Tally {
    fn differ(&mut self, program: &str, file: &[u8], why: String) {
        self.differences += 1;
        let name = format!("difference-{}-{program}.job", self.differences);
        std::fs::write(&name, file).expect(&name);
        println!("{program}: {why}: {name}");
    }

    fn counted(&mut self, program: &str, answer: &str) {
        self.calls += 1;
        *self.answers.entry(format!("{program}: {answer}")).or_default() += 1;
    }

    fn annotate(&mut self, file: &[u8], lent: usize) -> Option<Vec<u8>> {
        let mut out = vec![OLD_BYTE; lent];
        let right = reference::annotate(file, lent);
        let ours = gumreta::annotate(file, &mut out).map(|a| a.to_vec()).map_err(refusal);
        self.counted("annotator", &right.as_ref().map_or_else(|n| format!("refused {n}"), |_| "written".into()));
        let mut memory = right.clone().unwrap_or_default();
        memory.resize(lent, OLD_BYTE);
        if ours != right {
            self.differ("annotator", file, format!("answers otherwise with {lent} bytes"));
        } else if out != memory {
            self.differ("annotator", file, format!("leaves other bytes in the {lent} lent"));
        }
        right.ok()
    }

    fn check(&mut self, file: &[u8]) -> bool {
        let right = reference::check(file);
        let ours = gumreta::check(file).map_err(refusal);
        self.counted("checker", &right.map_or_else(|n| format!("refused {n}"), |_| "accepted".into()));
        if ours != right {
            self.differ("checker", file, format!("{ours:?}, and {right:?} is right"));
        }
        right.is_ok()
    }

    /// How many steps were done.
    fn run(&mut self, file: &[u8], lent: &reference::Lent) -> u64 {
        let right = reference::run(file, lent);
        self.counted(
            "runner",
            &match right.ending {
                Ending::Refused(n) => format!("refused {n}"),
                Ending::Finished => "finished".into(),
                Ending::Stopped(n) => format!("stopped {n}"),
            },
        );
        let (mut cells, mut regions) = (vec![OLD_WORD; lent.cells], vec![OLD_WORD; lent.regions]);
        let (mut frames, mut prints) = (vec![OLD_WORD; lent.frames], vec![OLD_WORD; lent.prints]);
        let memory = gumreta::Lent { cells: &mut cells, regions: &mut regions, frames: &mut frames, prints: &mut prints };
        let ran = gumreta::run(file, memory, lent.steps as usize);
        let ours = match ran {
            Err(error) => (Ending::Refused(refusal(error)), 0),
            Ok(r) => match r.ending {
                gumreta::Ending::Finished => (Ending::Finished, r.steps as u64),
                gumreta::Ending::Stopped(s) => (Ending::Stopped(s.number()), r.steps as u64),
            },
        };
        let printed: Vec<i32> = ran.map_or(Vec::new(), |r| r.printed().collect());
        let mut places: Vec<u32> = right.printed.iter().map(|&n| n as u32).collect();
        places.resize(lent.prints, OLD_WORD);
        let refused = matches!(right.ending, Ending::Refused(_));
        let kept = [&cells, &regions, &frames].iter().all(|m| m.iter().all(|&w| w == OLD_WORD));
        if ours != (right.ending, right.steps) || printed != right.printed {
            self.differ("runner", file, format!("{ours:?} in {lent:?}, and {:?} after {} is right", right.ending, right.steps));
        } else if prints != places || refused && !kept {
            self.differ("runner", file, format!("leaves other words in {lent:?}"));
        }
        right.steps
    }

    fn all(&mut self, random: &mut Random, file: &[u8]) {
        self.files += 1;
        if let Some(annotated) = self.annotate(file, 65536) {
            // room for all of it, a byte less, anything
            let exact = annotated.len();
            for lent in [exact, exact - 1, random.below(exact)] {
                self.annotate(file, lent);
            }
        }
        let accepted = self.check(file);
        let done = self.run(file, &reference::Lent { steps: 20_000, ..reference::Lent::program() });
        if !accepted {
            self.run(file, &some_memory(random));
            return;
        }
        // before the step at which it stops for another cause, 10 comes first
        for steps in [done.saturating_sub(1), done, done + 1] {
            self.run(file, &reference::Lent { steps, ..reference::Lent::program() });
        }
        for _ in 0..3 {
            self.run(file, &some_memory(random));
        }
    }
}

/// Lent memory of any size, with remainders that are not used.
fn some_memory(random: &mut Random) -> reference::Lent {
    let words = |random: &mut Random, each: usize, most: usize| {
        let n = if random.once_in(2) { most } else { 4 };
        each * random.below(n) + random.below(each)
    };
    reference::Lent {
        cells: words(random, 8, 64),
        regions: words(random, 2, 32),
        frames: words(random, 136, 32),
        prints: words(random, 1, 32),
        steps: [0, 1, 10, 100, 1000][random.below(5)] + random.below(100) as u64,
    }
}

/// A generated job, its annotation, and damaged ones of both.
fn generated(tally: &mut Tally, random: &mut Random) {
    let job = generate::job(random);
    tally.all(random, &job);
    let annotated = reference::annotate(&job, 65536);
    for _ in 0..3 {
        let file = generate::damaged(random, &job);
        tally.all(random, &file);
    }
    if let Ok(annotated) = annotated {
        tally.all(random, &annotated);
        for _ in 0..4 {
            let file = generate::damaged(random, &annotated);
            tally.all(random, &file);
        }
    }
}

fn table(path: &str) -> Vec<Vec<u8>> {
    let text = std::fs::read_to_string(path).unwrap_or_else(|e| panic!("{path}: {e}"));
    let bytes = |hex: &str| (0..hex.len() / 2).map(|k| u8::from_str_radix(&hex[2 * k..2 * k + 2], 16).expect("hex")).collect();
    text.lines().map(|line| bytes(line.split('\t').nth(1).expect("a second column"))).collect()
}

fn work(files: usize, seed: u64, tables: Vec<String>) -> bool {
    let mut random = Random::new(seed);
    let mut tally = Tally::default();
    for file in packs::jobs().into_iter().map(|(_, file)| file).chain(tables.iter().flat_map(|t| table(t))) {
        tally.all(&mut random, &file);
    }
    let known = tally.files;
    while tally.files < known + files {
        generated(&mut tally, &mut random);
    }
    for (answer, n) in &tally.answers {
        println!("{n:8}  {answer}");
    }
    println!(
        "{} files ({known} of the gate and of tables), {} calls, differences {}",
        tally.files, tally.calls, tally.differences
    );
    tally.differences == 0
}

fn main() {
    let words: Vec<String> = std::env::args().skip(1).collect();
    let number = |k: usize, other: u64| words.get(k).map_or(Some(other), |w| w.parse().ok());
    let (Some(files), Some(seed), false) = (number(0, 0), number(1, 1), words.is_empty()) else {
        eprintln!("usage: differential FILES [SEED [TABLE.tsv ..]]");
        std::process::exit(2);
    };
    let tables = words.into_iter().skip(2).collect();
    // the reference takes more than a usual stack on the deepest nesting
    let thread = std::thread::Builder::new().stack_size(1 << 28).spawn(move || work(files as usize, seed, tables)).unwrap();
    std::process::exit(if thread.join().unwrap_or(false) { 0 } else { 1 });
}

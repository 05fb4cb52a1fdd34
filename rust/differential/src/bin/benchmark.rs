//! The proved library and the reference side by side: milliseconds and instructions of the annotator, the checker and the runner.
//!
//!     cargo run --release -p differential --bin benchmark -- FOLDER ..     folders of job files, as tools/worst-cases and tools/long-runs write them
//!
//! A job without creates and removes goes to the annotator; the checker and the runner get what the annotator writes, or the job itself where it writes
//! nothing. The runner has the runner program's memory and steps. Milliseconds are the least processor time of several calls. Instructions are counted by valgrind, where that is
//! installed and a call takes less than 50 ms: the program calls itself for one call and for two, and the difference is one call's.
use std::hint::black_box;
use std::path::{Path, PathBuf};
use std::process::{exit, Command};
use std::time::{Duration, Instant};

const LENT: usize = 65536;
const STEPS: u64 = 1_000_000;
/// A call is repeated until this time is spent on it, at least thrice.
const ENOUGH: Duration = Duration::from_millis(100);

#[derive(Clone, Copy, PartialEq)]
enum Whose {
    Ours,
    Reference,
}

#[derive(Clone, Copy)]
enum Program {
    Annotator,
    Checker,
    Runner,
}

const PROGRAMS: [(&str, Program); 3] =
    [("annotator", Program::Annotator), ("checker", Program::Checker), ("runner", Program::Runner)];
const BOTH: [(&str, Whose); 2] = [("ours", Whose::Ours), ("reference", Whose::Reference)];

/// What a call answers, in a few words; the two must agree.
type Answer = (u64, u64);

struct Bench {
    out: Vec<u8>,
    memory: gumreta::Memory,
}

impl Bench {
    fn new() -> Bench {
        Bench { out: vec![0; LENT], memory: gumreta::Memory::program() }
    }

    fn ours(&mut self, program: Program, file: &[u8]) -> Answer {
        match program {
            Program::Annotator => {
                gumreta::annotate(file, &mut self.out).map_or_else(|e| (e.number(), 0), |a| (0, a.len() as u64))
            }
            Program::Checker => gumreta::check(file).map_or_else(|e| (e.number(), 0), |_| (0, 0)),
            Program::Runner => match gumreta::run(file, self.memory.lent(), STEPS as usize) {
                Err(e) => (e.number(), 0),
                Ok(r) => match r.ending {
                    gumreta::Ending::Finished => (0, r.steps as u64),
                    gumreta::Ending::Stopped(s) => (s.number() as u64, r.steps as u64),
                },
            },
        }
    }

    fn reference(program: Program, file: &[u8]) -> Answer {
        match program {
            Program::Annotator => reference::annotate(file, LENT).map_or_else(|n| (n as u64, 0), |a| (0, a.len() as u64)),
            Program::Checker => reference::check(file).map_or_else(|n| (n as u64, 0), |_| (0, 0)),
            Program::Runner => {
                let r = reference::run(file, &reference::Lent { steps: STEPS, ..reference::Lent::program() });
                match r.ending {
                    reference::Ending::Finished => (0, r.steps),
                    reference::Ending::Stopped(n) => (n as u64, r.steps),
                    reference::Ending::Refused(n) => (n as u64, 0),
                }
            }
        }
    }

    fn call(&mut self, whose: Whose, program: Program, file: &[u8]) -> Answer {
        match whose {
            Whose::Ours => self.ours(program, black_box(file)),
            Whose::Reference => Bench::reference(program, black_box(file)),
        }
    }

    fn milliseconds(&mut self, whose: Whose, program: Program, file: &[u8]) -> (f64, Answer) {
        let (start, mut least, mut answer, mut calls) = (Instant::now(), f64::MAX, (0, 0), 0);
        while calls < 3 || start.elapsed() < ENOUGH {
            let before = processor_time();
            answer = black_box(self.call(whose, program, file));
            least = least.min(processor_time() - before);
            calls += 1;
        }
        (least, answer)
    }
}

#[repr(C)]
struct Timespec {
    seconds: i64,
    nanoseconds: i64,
}

extern "C" {
    fn clock_gettime(clock: i32, time: *mut Timespec) -> i32;
}

/// Milliseconds that this thread has had of a processor: what else the machine does is not counted.
fn processor_time() -> f64 {
    const CLOCK_THREAD_CPUTIME_ID: i32 = 3;
    let mut time = Timespec { seconds: 0, nanoseconds: 0 };
    // SAFETY: the pointer is that of a timespec as x86-64 Linux has it.
    let failed = unsafe { clock_gettime(CLOCK_THREAD_CPUTIME_ID, &mut time) };
    assert_eq!(failed, 0, "the clock can be read");
    time.seconds as f64 * 1e3 + time.nanoseconds as f64 / 1e6
}

/// Instructions of one call, by valgrind.
fn instructions(whose: &str, program: &str, file: &Path) -> Option<u64> {
    let count = |calls: &str| -> Option<u64> {
        let me = std::env::current_exe().ok()?;
        let out = Command::new("valgrind")
            .args(["--tool=callgrind", "--callgrind-out-file=/dev/null"])
            .arg(me)
            .args(["call", whose, program, calls])
            .arg(file)
            .output()
            .ok()?;
        let text = String::from_utf8_lossy(&out.stderr).into_owned();
        text.lines().find(|l| l.contains("Collected"))?.split(':').next_back()?.trim().parse().ok()
    };
    count("2")?.checked_sub(count("1")?)
}

fn shown(count: Option<u64>) -> String {
    count.map_or("–".into(), |n| if n < 10_000_000 { format!("{}", n) } else { format!("{} M", n / 1_000_000) })
}

fn row(name: &str, program: (&str, Program), file: &[u8], copy: &Path) -> bool {
    let mut bench = Bench::new();
    let (ours, answer) = bench.milliseconds(Whose::Ours, program.1, file);
    let (theirs, right) = bench.milliseconds(Whose::Reference, program.1, file);
    std::fs::write(copy, file).expect("a copy of the file");
    let counts =
        [(BOTH[0].0, ours), (BOTH[1].0, theirs)]
            .map(|(whose, ms)| if ms < 50.0 { instructions(whose, program.0, copy) } else { None });
    let more = counts[0].zip(counts[1]).is_some_and(|(a, b)| a > b);
    let note = match (ours > theirs, more) {
        (false, false) => "",
        (true, false) => " slower",
        (false, true) => " more instructions",
        (true, true) => " slower, more instructions",
    };
    let said = format!("{}{}", answer.0, if answer.1 == 0 { String::new() } else { format!(" {}", answer.1) });
    println!(
        "| {:<9} | {:<22} | {:>5} | {:<11} | {:>9.3} | {:>9.3} | {:>6.1} | {:>9} | {:>9} |{note} |",
        program.0,
        name,
        file.len() / 16,
        said,
        ours,
        theirs,
        theirs / ours,
        shown(counts[0]),
        shown(counts[1])
    );
    if answer != right {
        println!("  the answers differ: {answer:?}, and {right:?} by the reference");
    }
    answer == right
}

fn jobs(folder: &str) -> Vec<PathBuf> {
    let listed = std::fs::read_dir(folder).unwrap_or_else(|e| {
        eprintln!("{folder}: {e}");
        exit(2)
    });
    let mut found: Vec<PathBuf> =
        listed.map(|f| f.unwrap().path()).filter(|p| p.is_file() && p.extension().is_none_or(|e| e == "job")).collect();
    found.sort();
    found
}

fn table(folders: Vec<String>) -> bool {
    println!("answer: document 01's number, 0 if done, and the bytes written or the steps done\n");
    println!(
        "| program   | file                   | recs  | answer      | ours, ms  | Rust, ms  | ratio  | ours, I   | Rust, I   | |"
    );
    println!("|---|---|---|---|---|---|---|---|---|---|");
    let copy = std::env::temp_dir().join(format!("benchmark-{}.job", std::process::id()));
    let mut alike = true;
    for program in PROGRAMS {
        for path in folders.iter().flat_map(|f| jobs(f)) {
            let mut file = std::fs::read(&path).expect("a job file");
            if !matches!(program.1, Program::Annotator) {
                let mut out = vec![0; LENT];
                file = gumreta::annotate(&file, &mut out).map_or(file.clone(), |a| a.to_vec());
            }
            let name = path.file_stem().unwrap().to_string_lossy().into_owned();
            alike = row(&name, program, &file, &copy) && alike;
        }
    }
    let _ = std::fs::remove_file(copy);
    alike
}

/// One or two calls, for valgrind to count.
fn call(words: &[String]) -> Option<bool> {
    let whose = BOTH.iter().find(|w| w.0 == words[1])?.1;
    let program = PROGRAMS.iter().find(|p| p.0 == words[2])?.1;
    let file = std::fs::read(&words[4]).ok()?;
    let mut bench = Bench::new();
    for _ in 0..words[3].parse::<usize>().ok()? {
        black_box(bench.call(whose, program, &file));
    }
    Some(true)
}

fn main() {
    let words: Vec<String> = std::env::args().skip(1).collect();
    if words.is_empty() || words[0].starts_with('-') {
        eprintln!("usage: benchmark FOLDER ..");
        exit(2);
    }
    let work = move || match &words[0][..] {
        "call" if words.len() == 5 => call(&words).unwrap_or(false),
        _ => table(words),
    };
    // the reference takes more than a usual stack on the deepest nesting
    let thread = std::thread::Builder::new().stack_size(1 << 28).spawn(work).unwrap();
    exit(if thread.join().unwrap_or(false) { 0 } else { 1 });
}

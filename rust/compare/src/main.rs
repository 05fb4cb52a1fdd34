//! Puts generated and damaged job files to the proved programs and to the reference, and compares the answers.
//!
//!     cargo run --release -p compare -- FOLDER FILES [SEED]     FOLDER is crates/, which has the programs as annotator/out/annotator and so on
use compare::generate;
use compare::random::Random;
use reference::Lent;
use std::collections::BTreeMap;
use std::io::Write;
use std::process::{Command, Stdio};

fn answer(program: &str, file: &[u8]) -> Vec<u8> {
    let mut child = Command::new(program).stdin(Stdio::piped()).stdout(Stdio::piped()).spawn().expect(program);
    let _ = child.stdin.take().unwrap().write_all(file);
    child.wait_with_output().unwrap().stdout
}

fn refused(n: u8) -> Vec<u8> {
    format!("refused {n}\n").into_bytes()
}

fn annotator(file: &[u8]) -> Vec<u8> {
    reference::annotate(file, 65536).unwrap_or_else(refused)
}

fn checker(file: &[u8]) -> Vec<u8> {
    reference::check(file).map_or_else(refused, |_| b"accepted\n".to_vec())
}

fn runner(file: &[u8]) -> Vec<u8> {
    reference::run(file, &Lent::program()).lines().into_bytes()
}

/// How a program answered, for the summary.
fn sort(out: &[u8]) -> String {
    let text = String::from_utf8_lossy(out);
    match text.trim_end().rsplit('\n').next().unwrap_or("").split(' ').collect::<Vec<_>>()[..] {
        ["refused", n] => format!("refused {n}"),
        ["stopped", n, _] => format!("stopped {n}"),
        ["finished", _] => "finished".into(),
        ["accepted"] => "accepted".into(),
        _ => "written".into(),
    }
}

struct Tally {
    folder: String,
    answers: BTreeMap<String, usize>,
    differences: usize,
    files: usize,
}

impl Tally {
    fn compare(&mut self, program: &str, file: &[u8], right: Vec<u8>) {
        let path = format!("{}/{program}/out/{program}", self.folder);
        *self.answers.entry(format!("{program}: {}", sort(&right))).or_default() += 1;
        if answer(&path, file) != right {
            self.differences += 1;
            let name = format!("difference-{}-{program}.job", self.differences);
            std::fs::write(&name, file).unwrap();
            println!("{program} answers otherwise: {name}");
        }
    }

    fn all(&mut self, file: &[u8]) {
        self.files += 1;
        self.compare("annotator", file, annotator(file));
        self.compare("checker", file, checker(file));
        self.compare("runner", file, runner(file));
    }
}

fn work(folder: String, files: usize, seed: u64) {
    let mut tally = Tally { folder, answers: BTreeMap::new(), differences: 0, files: 0 };
    let mut random = Random::new(seed);
    while tally.files < files {
        let job = generate::job(&mut random);
        tally.all(&job);
        let annotated = reference::annotate(&job, 65536);
        for _ in 0..3 {
            tally.all(&generate::damaged(&mut random, &job));
        }
        if let Ok(annotated) = annotated {
            assert_eq!(reference::check(&annotated), Ok(()), "the reference accepts what it writes");
            tally.all(&annotated);
            for _ in 0..4 {
                tally.all(&generate::damaged(&mut random, &annotated));
            }
        }
    }
    for (answer, n) in &tally.answers {
        println!("{n:8}  {answer}");
    }
    println!("{} files, differences {}", tally.files, tally.differences);
    std::process::exit(if tally.differences == 0 { 0 } else { 1 });
}

fn main() {
    let words: Vec<String> = std::env::args().collect();
    let usage = "compare FOLDER FILES [SEED]";
    let folder = words.get(1).expect(usage).clone();
    let files = words.get(2).expect(usage).parse().expect(usage);
    let seed = words.get(3).map_or(1, |s| s.parse().expect(usage));
    // the deepest nesting takes more than a usual stack
    std::thread::Builder::new().stack_size(1 << 28).spawn(move || work(folder, files, seed)).unwrap().join().unwrap();
}

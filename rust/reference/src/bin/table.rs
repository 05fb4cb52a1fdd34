//! The answers of the reference against those of tables, one file a line, parted by tabs:
//!
//!     cargo run --release -p reference --bin table -- TABLE.tsv ..
//!
//! A line has a name, the file in hex, and either what annotator, checker and runner answer, or how many cells, regions, frames, printed numbers and steps
//! are lent, and what the runner answers then. A written file stands in hex, lines are joined by spaces.
use reference::{annotate, check, run, Lent};

fn bytes(hex: &str) -> Vec<u8> {
    (0..hex.len() / 2).map(|k| u8::from_str_radix(&hex[2 * k..2 * k + 2], 16).expect("hex")).collect()
}

fn refused(n: u8) -> String {
    format!("refused {n}")
}

fn ran(file: &[u8], lent: &Lent) -> String {
    run(file, lent).lines().trim_end().replace('\n', " ")
}

/// What the reference answers to a line's file, and what the line says.
fn answers<'a>(line: &'a str, remainder: bool) -> Vec<(String, &'a str)> {
    match line.split('\t').collect::<Vec<_>>()[..] {
        [_, hex, annotated, checked, lines] => {
            let file = bytes(hex);
            let written = |out: Vec<u8>| out.iter().map(|b| format!("{b:02x}")).collect();
            let ours = annotate(&file, 65536).map_or_else(refused, written);
            let accepted = check(&file).map_or_else(refused, |_| "accepted".into());
            vec![(ours, annotated), (accepted, checked), (ran(&file, &Lent::program()), lines)]
        }
        [_, hex, cells, regions, frames, prints, steps, lines] => {
            // every other run with a remainder too small for one more
            let words =
                |n: &str, each: usize| n.parse::<usize>().expect("a number") * each + if remainder { each - 1 } else { 0 };
            let lent = Lent {
                cells: words(cells, 8),
                regions: words(regions, 2),
                frames: words(frames, 136),
                prints: words(prints, 1),
                steps: steps.parse().expect("a number"),
            };
            vec![(ran(&bytes(hex), &lent), lines)]
        }
        _ => panic!("neither five columns nor eight: {line}"),
    }
}

fn compare(tables: &[String]) -> bool {
    let (mut right, mut wrong) = (0, 0);
    for table in tables {
        let text = std::fs::read_to_string(table).unwrap_or_else(|e| panic!("{table}: {e}"));
        for (n, line) in text.lines().enumerate() {
            for (ours, theirs) in answers(line, n % 2 == 1) {
                if ours == theirs {
                    right += 1;
                } else {
                    wrong += 1;
                    println!("{table}: line {}: {ours}, and {theirs} is said", n + 1);
                }
            }
        }
    }
    println!("{right} answers alike, {wrong} not");
    wrong == 0
}

fn main() {
    let tables: Vec<String> = std::env::args().skip(1).collect();
    if tables.is_empty() {
        eprintln!("usage: table TABLE.tsv ..");
        std::process::exit(2);
    }
    // the deepest nesting takes more than a usual stack
    let thread = std::thread::Builder::new().stack_size(1 << 28).spawn(move || compare(&tables)).unwrap();
    std::process::exit(if thread.join().unwrap_or(false) { 0 } else { 1 });
}

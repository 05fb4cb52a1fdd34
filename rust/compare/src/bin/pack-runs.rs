//! Packs runs in lent memory of many sizes, with the lines that each must print, for the program `lent_runs`: pack-runs TABLE.tsv PACK STDOUT
//!
//! TABLE has a file a line, as tools/pack-jobs takes it. Of the accepted files of up to 64 records that run to their end, or to a sum out of range, in 4
//! to 5,000 steps, within what `lent_runs` has: up to sixty that hold cells, twenty that hold none, sixty that have tries, and twenty more that come to
//! such a sum or print a number of ten digits. Cells, regions, frames, printed numbers and steps are lent in turn as 0, one word, one too few, just enough
//! and more, the others just enough. A pack is files one behind the other: the length of the name in one byte, the name, the length of the file in three,
//! the file, how many runs in one byte, and for each the words lent for cells, regions, frames and printed numbers and the steps, in three bytes each; low
//! bytes first.
use reference::{run, Ending, Lent, Run};

/// As many words as `lent_runs` lends at most.
const MOST: Lent = Lent { cells: 160, regions: 16, frames: 1000, prints: 16, steps: 5000 };

fn fits(lent: &Lent) -> bool {
    lent.cells <= MOST.cells && lent.regions <= MOST.regions && lent.frames <= MOST.frames && lent.prints <= MOST.prints
}

fn bytes(hex: &str) -> Vec<u8> {
    (0..hex.len() / 2).map(|k| u8::from_str_radix(&hex[2 * k..2 * k + 2], 16).unwrap()).collect()
}

/// What runs are packed by, and how many files of each sort at most.
const SORTS: [(&str, usize); 4] =
    [("with cells", 60), ("without", 20), ("with sums out of range or numbers of ten digits", 20), ("with tries", 60)];

const TRY: u8 = 20;

fn sort(done: &Run, file: &[u8]) -> usize {
    let far = done.ending == Ending::Stopped(15) || done.printed.iter().any(|n| n.unsigned_abs() >= 1_000_000_000);
    if far {
        2
    } else if file.iter().step_by(16).any(|&kind| kind == TRY) {
        3
    } else if done.most.cells > 0 {
        0
    } else {
        1
    }
}

/// Just enough of each sort: before a sum out of range one step is left.
fn enough(done: &Run) -> Option<Lent> {
    let steps = match done.ending {
        Ending::Finished => done.steps,
        Ending::Stopped(15) => done.steps + 1,
        _ => return None,
    };
    let most = done.most;
    (4..=MOST.steps).contains(&steps).then_some(Lent {
        cells: 8 * most.cells,
        regions: 2 * most.regions,
        frames: 136 * most.frames,
        prints: done.printed.len(),
        steps,
    })
}

/// 0, a word, one too few with a remainder, just enough, more.
fn sizes(words: usize, each: usize) -> Vec<usize> {
    let mut all = vec![0, 1, words.saturating_sub(1), words, words + each + 1];
    all.sort();
    all.dedup();
    all
}

fn cases(lent: &Lent) -> Vec<Lent> {
    let mut found = Vec::new();
    found.extend(sizes(lent.cells, 8).into_iter().map(|n| Lent { cells: n, ..*lent }));
    found.extend(sizes(lent.regions, 2).into_iter().map(|n| Lent { regions: n, ..*lent }));
    found.extend(sizes(lent.frames, 136).into_iter().map(|n| Lent { frames: n, ..*lent }));
    found.extend(sizes(lent.prints, 1).into_iter().map(|n| Lent { prints: n, ..*lent }));
    found.extend(sizes(lent.steps as usize, 1).into_iter().map(|n| Lent { steps: n as u64, ..*lent }));
    found
}

/// A number in three bytes.
fn number(n: usize) -> [u8; 3] {
    let [a, b, c, 0, ..] = n.to_le_bytes() else { panic!("{n} takes more than three bytes") };
    [a, b, c]
}

fn packed(name: &str, file: &[u8], cases: &[Lent]) -> Vec<u8> {
    let mut data = vec![name.len() as u8];
    data.extend(name.as_bytes());
    data.extend(number(file.len()));
    data.extend(file);
    data.push(cases.len() as u8);
    for lent in cases {
        for n in [lent.cells, lent.regions, lent.frames, lent.prints, lent.steps as usize] {
            data.extend(number(n));
        }
    }
    data
}

fn main() {
    let words: Vec<String> = std::env::args().collect();
    let [_, table, pack, stdout] = &words[..] else { panic!("pack-runs TABLE.tsv PACK STDOUT") };
    let mut data = Vec::new();
    let mut lines = String::new();
    let (mut files, mut runs) = ([0; SORTS.len()], 0);
    for line in std::fs::read_to_string(table).unwrap().lines() {
        let [name, hex, _, answer, _] = line.split('\t').collect::<Vec<_>>()[..] else { panic!("{line}") };
        let file = bytes(hex);
        if answer != "accepted" || file.len() > 64 * 16 {
            continue;
        }
        let done = run(&file, &Lent::program());
        let Some(lent) = enough(&done) else { continue };
        let cases = cases(&lent);
        let sort = sort(&done, &file);
        if files[sort] == SORTS[sort].1 || !cases.iter().all(fits) {
            continue;
        }
        files[sort] += 1;
        data.extend(packed(name, &file, &cases));
        lines += &format!("{name}\n");
        lines.extend(cases.iter().map(|lent| run(&file, lent).lines()));
        runs += cases.len();
    }
    let files: Vec<String> = files.iter().zip(SORTS).map(|(n, (name, _))| format!("{n} {name}")).collect();
    println!("files: {}; {runs} runs, {} bytes", files.join(", "), data.len());
    std::fs::write(pack, data).unwrap();
    std::fs::write(stdout, lines).unwrap();
}

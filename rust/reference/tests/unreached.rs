//! Number 17, of C-18 of document 02: which procedures are reached, and when the number is looked at.
use reference::{annotate, check, run, Lent};

fn words(rows: &[Vec<u16>]) -> Vec<u8> {
    rows.iter().flat_map(|r| (0..8).flat_map(|k| r.get(k).copied().unwrap_or(0).to_le_bytes())).collect()
}

/// What the annotator (with so many bytes), the checker and the runner answer, 0 for no refusal.
fn numbers(file: &[u8], lent: usize) -> [u8; 3] {
    let number = |answer: Result<(), u8>| answer.map_or_else(|n| n, |_| 0);
    let lines = run(file, &Lent { steps: 1000, ..Lent::program() }).lines();
    let ran = lines.strip_prefix("refused ").map_or(0, |n| n.trim_end().parse().unwrap());
    [number(annotate(file, lent).map(|_| ())), number(check(file)), ran]
}

fn all_say(file: &[u8], number: u8) {
    assert_eq!(numbers(file, 65536), [number; 3]);
}

/// A file of procedures that do nothing but call, each those given for it.
fn calling(callees: &[Vec<u16>]) -> Vec<u8> {
    let mut rows: Vec<Vec<u16>> = vec![vec![1, 1, 0, 0]];
    for (q, called) in callees.iter().enumerate() {
        let first = rows.len() as u16 + 1;
        let behind = first + called.len() as u16;
        let next = if q + 1 < callees.len() { behind } else { 0 };
        rows.push(vec![4, next, 0, 0, if called.is_empty() { 0 } else { first }]);
        let link = |at: u16| if at < behind { at } else { 0 };
        rows.extend((first + 1..).zip(called).map(|(next, &p)| vec![15, link(next), p]));
    }
    rows[0][3] = rows.len() as u16;
    words(&rows)
}

/// The runner's lines, with a frame for each of 256 procedures.
fn ran(file: &[u8]) -> String {
    run(file, &Lent { frames: 256 * 136, ..Lent::program() }).lines()
}

/// Each of 256 procedures calls the next, in the order of the numbers or against it; then with any one of the calls left out.
#[test]
fn chain_of_256() {
    let rising = |q: u16| if q < 255 { vec![q + 1] } else { vec![] };
    let falling = |q: u16| match q {
        0 => vec![255],
        1 => vec![],
        _ => vec![q - 1],
    };
    for chain in [(0..256).map(rising).collect::<Vec<_>>(), (0..256).map(falling).collect()] {
        let file = calling(&chain);
        all_say(&file, 0);
        assert_eq!(ran(&file), "finished 255\n");
        for q in (0..256).filter(|&q| !chain[q].is_empty()) {
            let mut broken = chain.clone();
            broken[q] = vec![];
            all_say(&calling(&broken), 17);
        }
    }
}

/// The entry calls all others, or all but one.
#[test]
fn star_of_256() {
    let star = |callees: Vec<u16>| {
        let mut procedures = vec![vec![]; 256];
        procedures[0] = callees;
        calling(&procedures)
    };
    let file = star((1..256).collect());
    all_say(&file, 0);
    assert_eq!(ran(&file), "finished 255\n");
    for left_out in 1..256 {
        all_say(&star((1..256).filter(|&q| q != left_out).collect()), 17);
    }
}

/// 255 procedures that call each other around, and an entry that calls none, itself, or any one of them.
#[test]
fn cycle_of_255() {
    let cycle = |entry: Vec<u16>| {
        let mut procedures = vec![entry];
        procedures.extend((1..256).map(|q| vec![q % 255 + 1]));
        calling(&procedures)
    };
    all_say(&cycle(vec![]), 17);
    all_say(&cycle(vec![0]), 17);
    for q in [1, 77, 255] {
        all_say(&cycle(vec![q]), 0);
    }
}

#[test]
fn calls_that_do_not_reach() {
    let none = [vec![], vec![]];
    let island = [vec![], vec![2], vec![1]];
    let island_beside_one_reached = [vec![1], vec![], vec![3, 1], vec![2]];
    let called_only_by_itself = [vec![], vec![1]];
    let calls_only_the_entry = [vec![], vec![0]];
    for procedures in [&none[..], &island, &island_beside_one_reached, &called_only_by_itself, &calls_only_the_entry] {
        all_say(&calling(procedures), 17);
    }
}

#[test]
fn calls_that_reach() {
    let alone = [vec![]];
    let entry_by_itself = [vec![0]];
    let back_to_the_entry = [vec![1], vec![0]];
    let by_later_ones = [vec![3], vec![], vec![1, 1], vec![2]];
    for procedures in [&alone[..], &entry_by_itself, &back_to_the_entry, &by_later_ones] {
        all_say(&calling(procedures), 0);
    }
}

/// An entry that calls `callee` in the then part or in the else part of an if, the one that its run does not take.
fn calling_in_a_part(then: bool, callee: u16) -> Vec<u8> {
    let (y, z, parts) = if then { (1, 0, [7, 0]) } else { (0, 1, [0, 7]) };
    words(&[
        vec![1, 1, 0, 9],
        vec![4, 8, 2, 0, 4],
        vec![5, 3],
        vec![5],
        vec![8, 5, 1, y],
        vec![8, 6, 2, z],
        vec![14, 0, 1, 2, parts[0], parts[1]],
        vec![15, 0, callee],
        vec![4],
    ])
}

/// .. in the second arm of a switch, where its run takes the first.
fn calling_in_an_arm(callee: u16) -> Vec<u8> {
    words(&[
        vec![1, 4, 1, 12],
        vec![2, 0, 2],
        vec![3, 3],
        vec![3],
        vec![4, 11, 5, 0, 6],
        vec![5, 0, 0, 1],
        vec![11, 7, 1, 0],
        vec![12, 0, 1, 8],
        vec![13, 9],
        vec![13, 0, 10, 1],
        vec![15, 0, callee],
        vec![4],
    ])
}

/// Calls of the text count, also where no run takes them.
#[test]
fn calls_that_are_not_taken() {
    let all = |callee| [calling_in_a_part(true, callee), calling_in_a_part(false, callee), calling_in_an_arm(callee)];
    for (file, steps) in all(1).iter().zip([3, 3, 2]) {
        all_say(file, 0);
        assert_eq!(ran(file), format!("finished {steps}\n"));
    }
    for file in all(0) {
        all_say(&file, 17);
    }
}

/// An entry that calls `callee`, and procedure 1 with a number, two terms that hold one, and these goals. The terms have a region each, the first of the
/// class given.
fn beside(callee: u16, class: u16, goals: &[&[u16]]) -> Vec<u8> {
    let first = 11;
    let end = first + goals.len() as u16;
    let mut rows = vec![
        vec![1, 3, 1, end],
        vec![2, 0, 2],
        vec![3, 0, 1],
        vec![4, 5, 0, 0, 4],
        vec![15, 0, callee],
        vec![4, 0, 6, 9, first],
        vec![5, 7],
        vec![5, 8, 0, 1, 1],
        vec![5, 0, 0, 1, 2],
        vec![6, 10, 1, class],
        vec![6, 0, 1],
    ];
    rows.extend(goals.iter().map(|g| g.to_vec()));
    for (n, row) in rows.iter_mut().enumerate().skip(first as usize) {
        row[1] = (n as u16 + 1) % end;
    }
    words(&rows)
}

const SEVEN: &[u16] = &[8, 0, 1, 7];
const TERM: &[u16] = &[11, 0, 2, 0, 1];

/// "The number is 17, looked at after 5 ..": each fault in procedure 1, called and not called.
#[test]
fn after_5() {
    let unused_word: &[u16] = &[8, 0, 1, 7, 1];
    let print_of_a_term: &[u16] = &[17, 0, 2];
    let without_a_value: &[u16] = &[17, 0, 1];
    let other_region: &[u16] = &[10, 0, 3, 2];
    for (goals, number) in
        [(&[unused_word][..], 2), (&[print_of_a_term], 3), (&[without_a_value], 4), (&[SEVEN, TERM, other_region], 5)]
    {
        for callee in [0, 1] {
            all_say(&beside(callee, 0, goals), number);
        }
    }
    assert_eq!(numbers(&beside(0, 0, &[SEVEN])[16..], 65536), [1; 3]);
}

/// ".. and before 6", so before 7, 8 and 9 too.
#[test]
fn before_6() {
    let held: [&[u16]; 4] = [SEVEN, &[18, 0, 1], TERM, &[19, 0, 1]];
    for (class, goals, lent, called) in [
        (0, &held[..], 65536, [6, 0, 0]),
        (1, &held, 65536, [6, 7, 7]),
        (1, &[SEVEN], 65536, [7, 7, 7]),
        (0, &[SEVEN, TERM], 65536, [0, 8, 8]),
        (0, &[SEVEN], 16, [9, 0, 0]),
    ] {
        assert_eq!(numbers(&beside(1, class, goals), lent), called);
        assert_eq!(numbers(&beside(0, class, goals), lent), [17; 3]);
    }
}

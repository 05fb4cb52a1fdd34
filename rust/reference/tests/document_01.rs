//! Document 01's hand-sized files with the answers that follow after C-14 and C-15 of document 02, the new U, files of one cell in their place, and sums.
use reference::{annotate, check, run, Lent};

fn words(rows: &[&[u16]]) -> Vec<u8> {
    rows.iter().flat_map(|r| (0..8).flat_map(|k| r.get(k).copied().unwrap_or(0).to_le_bytes())).collect()
}

fn ran(file: &[u8], cells: usize, frames: usize, steps: u64) -> String {
    run(file, &Lent { cells, regions: 2, frames, prints: 0, steps }).lines()
}

/// "Old files that give such a type a region get 3."
#[test]
fn document_01() {
    const FIVE: [&[u16]; 5] = [&[2, 0, 2], &[3], &[4, 0, 4, 5, 6], &[5, 0, 0, 1, 1], &[6, 0, 1]];
    let file = |goals: &[&[u16]]| words(&[&[&[1, 3, 1, 6 + goals.len() as u16][..]], &FIVE[..], goals].concat());
    let u = file(&[&[11, 0, 1, 0]]);
    let a = file(&[&[18, 7, 1], &[11, 8, 1, 0], &[19, 0, 1]]);
    let early = file(&[&[18, 7, 1], &[19, 8, 1], &[11, 0, 1, 0]]);
    for file in [&u, &a, &early] {
        assert_eq!(annotate(file, 65536), Err(3));
        assert_eq!(check(file), Err(3));
        assert_eq!(ran(file, 8, 136, 3), "refused 3\n");
    }
    let mut unused = u.clone();
    unused[16 * 5 + 14] = 1;
    assert_eq!(check(&unused), Err(2));
    assert_eq!(check(&[]), Err(1));
}

/// "File U then has no region record and comes back from the annotator unchanged with six records, and it runs in one step."
#[test]
fn new_u() {
    let u = words(&[&[1, 3, 1, 6], &[2, 0, 2], &[3], &[4, 0, 4, 0, 5], &[5, 0, 0, 1], &[11, 0, 1, 0]]);
    assert_eq!(annotate(&u, 96), Ok(u.clone()));
    assert_eq!(annotate(&u, 95), Err(9));
    assert_eq!(check(&u), Ok(()));
    assert_eq!(ran(&u, 8, 136, 1), "finished 1\n");
    assert_eq!(ran(&u, 8, 136, 0), "stopped 10 0\n");
    assert_eq!(ran(&u, 0, 136, 1), "finished 1\n");
    assert_eq!(ran(&u, 8, 0, 0), "stopped 13 0\n");
}

/// A functor with an argument, so that its type has a region and its term a cell.
#[test]
fn one_cell() {
    const SIX: [&[u16]; 6] = [&[2, 0, 2], &[3, 0, 1], &[4, 0, 4, 6, 7], &[5, 5], &[5, 0, 0, 1, 1], &[6, 0, 1]];
    let file = |goals: &[&[u16]]| words(&[&[&[1, 3, 1, 7 + goals.len() as u16][..]], &SIX[..], goals].concat());
    let plain = file(&[&[8, 8, 1, 7], &[11, 0, 2, 0, 1]]);
    let annotated = file(&[&[8, 8, 1, 7], &[18, 9, 1], &[11, 10, 2, 0, 1], &[19, 0, 1]]);
    let early = file(&[&[8, 8, 1, 7], &[18, 9, 1], &[19, 10, 1], &[11, 0, 2, 0, 1]]);
    let twice = file(&[&[8, 8, 1, 7], &[18, 9, 1], &[11, 10, 2, 0, 1], &[19, 11, 1], &[19, 0, 1]]);
    assert_eq!(annotate(&plain, 176), Ok(annotated.clone()));
    assert_eq!(annotate(&plain, 175), Err(9));
    assert_eq!(annotate(&annotated, 176), Err(6));
    assert_eq!(check(&annotated), Ok(()));
    for refused in [&plain, &early, &twice] {
        assert_eq!(check(refused), Err(8));
    }
    assert_eq!(ran(&annotated, 8, 136, 4), "finished 4\n");
    assert_eq!(ran(&annotated, 8, 136, 3), "stopped 10 3\n");
    assert_eq!(ran(&annotated, 0, 136, 4), "stopped 11 2\n");
    assert_eq!(ran(&annotated, 8, 0, 0), "stopped 13 0\n");
}

/// In a type with a functor that has arguments a constant's region is created, held and needed as before, but the constant takes no cell and is read in
/// no region.
#[test]
fn constant_of_a_mixed_type() {
    const HEAD: [&[u16]; 8] =
        [&[2, 0, 2], &[3, 3], &[3, 0, 1], &[4, 0, 5, 7, 8], &[5, 6], &[5, 0, 0, 1, 1], &[6, 0, 1], &[18, 9, 1]];
    let file = |goals: &[&[u16]]| words(&[&[&[1, 4, 1, 9 + goals.len() as u16][..]], &HEAD[..], goals].concat());
    let good = file(&[&[11, 10, 2, 0], &[12, 13, 2, 11], &[13, 12], &[13, 0, 0, 1, 1], &[19, 0, 1]]);
    let after = file(&[&[11, 10, 2, 0], &[19, 11, 1], &[12, 0, 2, 12], &[13, 13], &[13, 0, 0, 1, 1]]);
    assert_eq!(check(&good), Ok(()));
    assert_eq!(check(&after), Err(8));
    assert_eq!(ran(&good, 0, 136, 4), "finished 4\n");
}

/// A region record of a type of constants, used or not, and an edge to one; a variable of one is in no region and fits every construct.
#[test]
fn types_of_constants() {
    let idle = words(&[&[1, 3, 1, 5], &[2, 0, 2], &[3], &[4, 0, 0, 4], &[6, 0, 1]]);
    let with_region = words(&[&[1, 3, 1, 5], &[2, 0, 2], &[3], &[4, 0, 4], &[5, 0, 0, 1, 1]]);
    let two = |rest: &[&[u16]]| {
        words(&[&[&[1, 5, 1, 5 + rest.len() as u16][..], &[2, 3, 2], &[3], &[2, 0, 4], &[3, 0, 1, 1]], rest].concat())
    };
    let edge = two(&[&[4, 0, 0, 6], &[6, 0, 2, 0, 7], &[7, 0, 0, 1, 1]]);
    let held = two(&[
        &[4, 0, 6, 8, 9],
        &[5, 7, 0, 1],
        &[5, 0, 0, 2, 1],
        &[6, 0, 2],
        &[11, 10, 1, 0],
        &[18, 11, 1],
        &[11, 12, 2, 0, 1],
        &[19, 0, 1],
    ]);
    for refused in [&idle, &with_region, &edge] {
        assert_eq!(annotate(refused, 65536), Err(3));
        assert_eq!(check(refused), Err(3));
    }
    assert_eq!(check(&held), Ok(()));
    assert_eq!(ran(&held, 8, 136, 4), "finished 4\n");
}

/// The numbers that `last` takes: the lowest, the highest, 0, 1 and −1, in variables 17 to 21.
const LOW: u16 = 17;
const HIGH: u16 = 18;
const ZERO: u16 = 19;
const ONE: u16 = 20;
const MINUS_ONE: u16 = 21;

/// A run that makes them in 21 steps: −32,768 doubled sixteen times is the lowest, and −1 less that the highest. It prints 0; then comes one sum or
/// difference of two of them, and its print.
fn last(operation: u16, y: u16, z: u16) -> Vec<u8> {
    const VARIABLES: u16 = 22;
    let mut goals: Vec<Vec<u16>> = vec![vec![8, 0, 1, 32768]];
    goals.extend((1..LOW).map(|x| vec![9, 0, x + 1, 0, x, x]));
    goals.extend([(ZERO, 0), (ONE, 1), (MINUS_ONE, 65535)].map(|(x, value)| vec![8, 0, x, value]));
    goals.push(vec![9, 0, HIGH, 1, MINUS_ONE, LOW]);
    goals.extend([vec![17, 0, ZERO], vec![9, 0, VARIABLES, operation, y, z], vec![17, 0, VARIABLES]]);
    let first = 2 + VARIABLES;
    let end = first + goals.len() as u16;
    let mut rows = vec![vec![1, 1, 0, end], vec![4, 0, 2, 0, first]];
    rows.extend((3..first).map(|next| vec![5, next]));
    rows.push(vec![5]);
    for (goal, next) in goals.iter_mut().zip(first + 1..end) {
        goal[1] = next;
    }
    rows.extend(goals);
    words(&rows.iter().map(|r| &r[..]).collect::<Vec<_>>())
}

fn printing(file: &[u8], prints: usize, steps: u64) -> String {
    run(file, &Lent { cells: 0, regions: 0, frames: 136, prints, steps }).lines()
}

/// "A sum or difference outside −2,147,483,648 to 2,147,483,647 now stops the run before that step."
#[test]
fn sums_at_both_ends() {
    for (operation, y, z, result) in [
        (0, HIGH, ZERO, "2147483647"),
        (0, LOW, ZERO, "-2147483648"),
        (0, LOW, HIGH, "-1"),
        (0, HIGH, MINUS_ONE, "2147483646"),
        (1, MINUS_ONE, HIGH, "-2147483648"),
        (1, MINUS_ONE, LOW, "2147483647"),
        (1, LOW, LOW, "0"),
        (1, LOW, MINUS_ONE, "-2147483647"),
    ] {
        assert_eq!(printing(&last(operation, y, z), 2, 24), format!("0\n{result}\nfinished 24\n"), "{operation} {y} {z}");
    }
    for (operation, y, z) in [
        (0, HIGH, ONE),
        (0, ONE, HIGH),
        (0, LOW, MINUS_ONE),
        (0, MINUS_ONE, LOW),
        (0, HIGH, HIGH),
        (0, LOW, LOW),
        (1, HIGH, MINUS_ONE),
        (1, LOW, ONE),
        (1, ZERO, LOW),
        (1, HIGH, LOW),
        (1, LOW, HIGH),
    ] {
        assert_eq!(printing(&last(operation, y, z), 2, 24), "0\nstopped 15 22\n", "{operation} {y} {z}");
    }
}

/// "Before a step the lower of two numbers is given": 10 before 15, and 14 at a print before the sum.
#[test]
fn sums_and_other_stops() {
    let over = last(0, HIGH, ONE);
    assert_eq!(check(&over), Ok(()));
    assert_eq!(printing(&over, 2, 22), "0\nstopped 10 22\n");
    assert_eq!(printing(&over, 2, 23), "0\nstopped 15 22\n");
    assert_eq!(printing(&over, 0, 23), "stopped 14 21\n");
    assert_eq!(printing(&last(0, HIGH, ZERO), 2, 23), "0\nstopped 10 23\n");
}

//! C-20 of document 02: where tests may stand, what a failing one brings back, and what counts as held in a condition.
use reference::{annotate, check, run, Lent};

/// A goal: kind and words from w2 on, and the chains that its last words lead to.
#[derive(Clone)]
struct Goal(Vec<u16>, Vec<Vec<Goal>>);

fn goal(words: &[u16]) -> Goal {
    Goal(words.to_vec(), Vec::new())
}

fn literal(x: u16, value: u16) -> Goal {
    goal(&[8, x, value])
}

fn build(x: u16) -> Goal {
    goal(&[11, x, 0, 1])
}

fn print(y: u16) -> Goal {
    goal(&[17, y])
}

fn create(r: u16) -> Goal {
    goal(&[18, r])
}

fn remove(r: u16) -> Goal {
    goal(&[19, r])
}

fn test(y: u16, z: u16) -> Goal {
    goal(&[21, y, z])
}

fn attempt(condition: Vec<Goal>, then_part: Vec<Goal>, else_part: Vec<Goal>) -> Goal {
    Goal(vec![20], vec![condition, then_part, else_part])
}

/// A switch on a box, its arm giving variable 6 what stands in it.
fn open(x: u16, arm: Vec<Goal>) -> Goal {
    Goal(vec![12, x], vec![vec![Goal(vec![13], vec![arm])]])
}

fn written(out: &mut Vec<[u16; 8]>, goals: &[Goal]) -> u16 {
    let first = if goals.is_empty() { 0 } else { out.len() as u16 };
    let mut last: Option<usize> = None;
    for Goal(words, parts) in goals {
        let at = out.len();
        if let Some(last) = last {
            out[last][1] = at as u16;
        }
        last = Some(at);
        out.push([0; 8]);
        out[at][0] = words[0];
        out[at][2..words.len() + 1].copy_from_slice(&words[1..]);
        if words[0] == 13 {
            out[at][4] = 6;
        }
        for (k, part) in parts.iter().enumerate() {
            out[at][words.len() + 1 + k] = written(out, part);
        }
    }
    first
}

/// A job of one procedure, which may call itself: numbers 1, 2 and 6 to 24, boxes of a number 3 to 5. Regions 1 to 3 are those of the boxes.
fn file(goals: &[Goal]) -> Vec<u8> {
    let mut rows: Vec<[u16; 8]> = vec![[1, 3, 1], [2, 0, 2], [3, 0, 1], [4, 0, 4]].into_iter().map(row).collect();
    rows.extend((1..=24).map(|x| {
        let (ty, region) = if (3..=5).contains(&x) { (1, x - 2) } else { (0, 0) };
        [5, if x < 24 { x + 4 } else { 0 }, 0, ty, region, 0, 0, 0]
    }));
    rows[3][3] = rows.len() as u16;
    rows.extend([[6, 29, 1], [6, 30, 1], [6, 0, 1]].map(row));
    rows[3][4] = written(&mut rows, goals);
    rows[0][3] = rows.len() as u16;
    rows.iter().flatten().flat_map(|w| w.to_le_bytes()).collect()
}

fn row([kind, next, word]: [u16; 3]) -> [u16; 8] {
    [kind, next, word, 0, 0, 0, 0, 0]
}

/// Behind 7 in variable 1 and −1 in variable 2.
fn job(goals: Vec<Goal>) -> Vec<u8> {
    file(&[vec![literal(1, 7), literal(2, 65535)], goals].concat())
}

/// The runner's lines with so many cells and regions.
fn ran(file: &[u8], cells: usize, regions: usize) -> String {
    run(file, &Lent { cells: 8 * cells, regions: 2 * regions, ..Lent::program() }).lines().replace('\n', " ")
}

/// "Conditions hold no call, print, if or try; tests stand only in conditions; otherwise 2": arms of a switch in a condition are part of it.
#[test]
fn number_2() {
    let call = goal(&[15, 0]);
    let less = Goal(vec![14, 1, 2], vec![vec![], vec![]]);
    let inner = attempt(vec![], vec![], vec![]);
    for wrong in [call, print(1), less, inner] {
        let arm = open(3, vec![wrong.clone()]);
        for condition in [vec![wrong.clone()], vec![test(2, 1), wrong.clone()], vec![arm]] {
            let file = job(vec![build(3), attempt(condition, vec![], vec![])]);
            assert_eq!((check(&file), annotate(&file, 65536)), (Err(2), Err(2)));
        }
        let file = job(vec![attempt(vec![], vec![wrong.clone()], vec![wrong])]);
        assert_eq!(check(&file), Ok(()));
    }
    for outside in [
        vec![test(2, 1)],
        vec![build(3), open(3, vec![test(2, 1)])],
        vec![Goal(vec![14, 1, 2], vec![vec![], vec![test(2, 1)]])],
        vec![attempt(vec![], vec![test(2, 1)], vec![])],
        vec![attempt(vec![test(2, 1)], vec![], vec![test(2, 1)])],
    ] {
        assert_eq!(check(&job(outside)), Err(2));
    }
}

/// A test's words are looked at as a print's: 3 for a box, 4 for no value, 2 for an unused word.
#[test]
fn words_of_a_test() {
    let with = |words: &[u16]| check(&job(vec![attempt(vec![goal(words)], vec![], vec![])]));
    assert_eq!(with(&[21, 2, 1]), Ok(()));
    assert_eq!(with(&[21, 2, 3]), Err(3));
    assert_eq!(with(&[21, 25, 1]), Err(3));
    assert_eq!(with(&[21, 2, 6]), Err(4));
    assert_eq!(with(&[21, 2, 1, 1]), Err(2));
}

/// A test that holds goes on with the then part, one that fails with the else part, in an arm too; try and test are a step each.
#[test]
fn parts() {
    let both = |condition: Vec<Goal>| job(vec![attempt(condition, vec![print(1)], vec![print(2)])]);
    assert_eq!(ran(&both(vec![test(2, 1)]), 0, 0), "7 finished 5 ");
    assert_eq!(ran(&both(vec![test(1, 2)]), 0, 0), "-1 finished 5 ");
    assert_eq!(ran(&both(vec![test(1, 1)]), 0, 0), "-1 finished 5 ");
    assert_eq!(ran(&both(vec![test(2, 1), test(2, 1)]), 0, 0), "7 finished 6 ");
    assert_eq!(ran(&both(vec![test(1, 2), test(2, 1)]), 0, 0), "-1 finished 5 ");
    assert_eq!(ran(&both(vec![]), 0, 0), "7 finished 4 ");
    let armed = |y, z| vec![create(1), build(3), open(3, vec![test(y, z)]), test(2, 1), remove(1)];
    assert_eq!(ran(&both(armed(2, 1)), 1, 1), "7 finished 10 ");
    assert_eq!(ran(&both(armed(1, 2)), 1, 1), "-1 finished 8 ");
}

/// "exactly as before the condition": a region number that the condition gave another meaning stands for its old region again, with its old cells.
#[test]
fn regions_come_back() {
    let condition = vec![remove(1), create(1), create(2), build(4), test(1, 2)];
    let read = vec![open(3, vec![print(6)]), remove(1)];
    let file = job(vec![create(1), build(3), attempt(condition, vec![remove(1), remove(2)], read)]);
    assert_eq!(check(&file), Ok(()));
    assert_eq!(ran(&file, 2, 3), "7 finished 13 ");
    assert_eq!(ran(&file, 1, 3), "stopped 11 8 ");
    assert_eq!(ran(&file, 2, 2), "stopped 12 7 ");
    assert_eq!(ran(&file, 2, 1), "stopped 12 6 ");
}

/// "A removal in a condition frees nothing before the then part begins"; a failing test frees what the condition made.
#[test]
fn held_until_the_then_part() {
    let held = vec![create(1), build(3)];
    let later = vec![create(2), build(4), remove(2)];
    let try_of = |condition: Vec<Goal>, then_part: Vec<Goal>, else_part: Vec<Goal>| {
        job([held.clone(), vec![attempt(condition, then_part, else_part)]].concat())
    };
    let in_then = try_of(vec![remove(1)], later.clone(), vec![remove(1)]);
    assert_eq!(ran(&in_then, 1, 1), "finished 9 ");
    let in_condition = try_of([vec![remove(1)], later.clone()].concat(), vec![], vec![remove(1)]);
    assert_eq!(ran(&in_condition, 1, 1), "stopped 12 6 ");
    assert_eq!(ran(&in_condition, 1, 2), "stopped 11 7 ");
    assert_eq!(ran(&in_condition, 2, 2), "finished 9 ");
    let failing = [vec![remove(1)], later.clone(), vec![test(1, 2)]].concat();
    let again = try_of(failing, vec![], [later, vec![remove(1)]].concat());
    assert_eq!(ran(&again, 2, 2), "finished 14 ");
    assert_eq!(ran(&again, 2, 1), "stopped 12 6 ");
}

/// The else part starts from what had a value and was held and sound before the try, the then part from what the condition ends with.
#[test]
fn what_the_parts_start_from() {
    let answer = |goals: Vec<Goal>| check(&job(goals));
    assert_eq!(answer(vec![attempt(vec![literal(6, 1)], vec![print(6)], vec![])]), Ok(()));
    assert_eq!(answer(vec![attempt(vec![literal(6, 1)], vec![], vec![print(6)])]), Err(4));
    assert_eq!(answer(vec![attempt(vec![literal(6, 1)], vec![], vec![literal(6, 2)]), print(6)]), Ok(()));
    assert_eq!(answer(vec![attempt(vec![literal(6, 1)], vec![], vec![]), print(6)]), Err(4));
    assert_eq!(answer(vec![attempt(vec![literal(6, 1)], vec![], vec![]), literal(6, 2)]), Err(4));
    let held = |then_part, else_part| answer(vec![create(1), build(3), attempt(vec![remove(1)], then_part, else_part)]);
    assert_eq!(held(vec![], vec![remove(1)]), Ok(()));
    assert_eq!(held(vec![], vec![open(3, vec![]), remove(1)]), Ok(()));
    assert_eq!(held(vec![open(3, vec![])], vec![remove(1)]), Err(8));
    assert_eq!(held(vec![remove(1)], vec![remove(1)]), Err(8));
    assert_eq!(held(vec![], vec![]), Err(8));
}

/// "Live before the try is what the else part needs, or the condition and then part in turn; inside the condition the else part doesn't count": what only
/// the else part reads is removed by the condition's first goals.
#[test]
fn placement() {
    let read = || open(3, vec![print(6)]);
    let source = job(vec![build(3), attempt(vec![test(1, 2)], vec![print(1)], vec![read()])]);
    let condition = vec![remove(1), test(1, 2)];
    let annotated = job(vec![create(1), build(3), attempt(condition, vec![print(1)], vec![open(3, vec![remove(1), print(6)])])]);
    assert_eq!(annotate(&source, 65536), Ok(annotated.clone()));
    assert_eq!(ran(&annotated, 1, 1), "7 finished 10 ");
    let unused = job(vec![attempt(vec![build(3), test(1, 2)], vec![], vec![])]);
    let placed = job(vec![attempt(vec![create(1), build(3), remove(1), test(1, 2)], vec![], vec![])]);
    assert_eq!(annotate(&unused, 65536), Ok(placed));
}

/// Only a test fails: a sum out of range in a condition stops the run. −32,768 doubled sixteen times is the lowest number.
#[test]
fn sums_in_a_condition() {
    let doubles = |n: u16| (8..8 + n).map(|x| goal(&[9, x, 0, x - 1, x - 1]));
    let attempted = |n: u16| {
        let condition = doubles(n).chain([test(1, 2)]).collect();
        job(vec![literal(7, 32768), attempt(condition, vec![], vec![print(1)])])
    };
    assert_eq!(ran(&attempted(16), 0, 0), "7 finished 22 ");
    assert_eq!(ran(&attempted(17), 0, 0), "stopped 15 20 ");
}

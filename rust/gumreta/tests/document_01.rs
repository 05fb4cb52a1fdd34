//! Document 01's hand-sized files, as C-14 and C-15 leave them, and C-18's procedures that are not reached, through the safe functions, with what stands
//! in lent memory afterwards.
use gumreta::{annotate, annotate_to_vec, check, run, Ending, Error, Lent, Refusal, Stop};

fn file(rows: &[&[u16]]) -> Vec<u8> {
    rows.iter().flat_map(|r| (0..8).flat_map(|k| r.get(k).copied().unwrap_or(0).to_le_bytes())).collect()
}

/// A constant, whose type has no region: nothing is to insert.
const U: [&[u16]; 6] = [&[1, 3, 1, 6], &[2, 0, 2], &[3], &[4, 0, 4, 0, 5], &[5, 0, 0, 1], &[11, 0, 1, 0]];

/// Document 01's A, which gives the constant's type a region.
const OLD_A: [&[u16]; 9] =
    [&[1, 3, 1, 9], &[2, 0, 2], &[3], &[4, 0, 4, 5, 6], &[5, 0, 0, 1, 1], &[6, 0, 1], &[18, 7, 1], &[11, 8, 1, 0], &[19, 0, 1]];

/// One cell, before the annotator and after it.
const PLAIN: [&[u16]; 9] = [
    &[1, 3, 1, 9],
    &[2, 0, 2],
    &[3, 0, 1],
    &[4, 0, 4, 6, 7],
    &[5, 5],
    &[5, 0, 0, 1, 1],
    &[6, 0, 1],
    &[8, 8, 1, 7],
    &[11, 0, 2, 0, 1],
];

const ANNOTATED: [&[u16]; 11] = [
    &[1, 3, 1, 11],
    &[2, 0, 2],
    &[3, 0, 1],
    &[4, 0, 4, 6, 7],
    &[5, 5],
    &[5, 0, 0, 1, 1],
    &[6, 0, 1],
    &[8, 8, 1, 7],
    &[18, 9, 1],
    &[11, 10, 2, 0, 1],
    &[19, 0, 1],
];

#[test]
fn annotated() {
    let mut out = [7; 182];
    assert_eq!(annotate(&file(&PLAIN), &mut out[..176]), Ok(&mut file(&ANNOTATED)[..]));
    assert_eq!(out[176..], [7; 6]);
    let mut out = [7; 102];
    assert_eq!(annotate(&file(&U), &mut out[..96]), Ok(&mut file(&U)[..]));
    assert_eq!(out[96..], [7; 6]);
    let mut out = [7; 175];
    assert_eq!(annotate(&file(&PLAIN), &mut out), Err(Error::Refused(Refusal::Room)));
    assert_eq!(annotate(&file(&U), &mut out[..95]), Err(Error::Refused(Refusal::Room)));
    assert_eq!(annotate(&file(&ANNOTATED), &mut out), Err(Error::Refused(Refusal::Annotated)));
    assert_eq!(annotate(&file(&OLD_A), &mut out), Err(Error::Refused(Refusal::Typing)));
    assert_eq!(annotate(&[], &mut out), Err(Error::Refused(Refusal::Header)));
    assert_eq!(annotate(&file(&U), &mut []), Err(Error::Refused(Refusal::Room)));
    assert_eq!(out, [7; 175]);
    assert_eq!(annotate_to_vec(&file(&PLAIN)), Ok(file(&ANNOTATED)));
    assert_eq!(annotate_to_vec(&[]), Err(Error::Refused(Refusal::Header)));
}

#[test]
fn checked() {
    assert_eq!(check(&file(&U)), Ok(()));
    assert_eq!(check(&file(&ANNOTATED)), Ok(()));
    assert_eq!(check(&file(&PLAIN)), Err(Error::Refused(Refusal::Rules)));
    assert_eq!(check(&file(&OLD_A)), Err(Error::Refused(Refusal::Typing)));
    assert_eq!(check(&[]), Err(Error::Refused(Refusal::Header)));
    assert_eq!(Refusal::Rules.number(), 8);
}

fn ran(file: &[u8], cells: usize, frames: usize, steps: usize) -> Result<(Ending, usize), Error> {
    let (mut c, mut r, mut f) = (vec![9; cells], [9; 2], vec![9; frames]);
    let result =
        run(file, Lent { cells: &mut c, regions: &mut r, frames: &mut f, prints: &mut [] }, steps).map(|r| (r.ending, r.steps));
    if result.is_err() {
        assert!(c.iter().chain(&r).chain(&f).all(|&w| w == 9), "a refusal leaves all lent memory as it was");
    }
    result
}

#[test]
fn runs() {
    let u = file(&U);
    assert_eq!(ran(&u, 8, 136, 1), Ok((Ending::Finished, 1)));
    assert_eq!(ran(&u, 8, 136, 0), Ok((Ending::Stopped(Stop::Steps), 0)));
    assert_eq!(ran(&u, 0, 136, 1), Ok((Ending::Finished, 1)));
    assert_eq!(ran(&u, 8, 0, 0), Ok((Ending::Stopped(Stop::Frames), 0)));
    let cell = file(&ANNOTATED);
    assert_eq!(ran(&cell, 8, 136, 4), Ok((Ending::Finished, 4)));
    assert_eq!(ran(&cell, 8, 136, 3), Ok((Ending::Stopped(Stop::Steps), 3)));
    assert_eq!(ran(&cell, 0, 136, 4), Ok((Ending::Stopped(Stop::Cells), 2)));
    assert_eq!(ran(&cell, 8, 0, 0), Ok((Ending::Stopped(Stop::Frames), 0)));
    assert_eq!(ran(&file(&PLAIN), 8, 136, 3), Err(Error::Refused(Refusal::Rules)));
    assert_eq!(ran(&file(&OLD_A), 8, 136, 3), Err(Error::Refused(Refusal::Typing)));
}

/// −32,768 printed, doubled `times` times, and printed again.
fn doubled(times: u16) -> Vec<u8> {
    let (last, first) = (times + 1, times + 3);
    let mut rows = vec![vec![1, 1, 0, first + times + 3], vec![4, 0, 2, 0, first]];
    rows.extend((3..first).map(|next| vec![5, next]));
    rows.extend([vec![5], vec![8, first + 1, 1, 32768], vec![17, first + 2, 1]]);
    rows.extend((1..last).map(|x| vec![9, first + x + 2, x + 1, 0, x, x]));
    rows.push(vec![17, 0, last]);
    file(&rows.iter().map(|r| &r[..]).collect::<Vec<_>>())
}

#[test]
fn sums() {
    let ran = |file: &[u8], steps: usize| {
        let (mut frames, mut prints) = ([9; 136], [9; 3]);
        let lent = Lent { cells: &mut [], regions: &mut [], frames: &mut frames, prints: &mut prints };
        let (ending, done) = run(file, lent, steps).map(|r| (r.ending, r.steps)).unwrap();
        (ending, done, prints.map(|w| w as i32))
    };
    assert_eq!(ran(&doubled(16), 30), (Ending::Finished, 19, [-32768, i32::MIN, 9]));
    assert_eq!(ran(&doubled(17), 30), (Ending::Stopped(Stop::Sums), 18, [-32768, 9, 9]));
    assert_eq!(ran(&doubled(17), 19), (Ending::Stopped(Stop::Sums), 18, [-32768, 9, 9]));
    assert_eq!(ran(&doubled(17), 18), (Ending::Stopped(Stop::Steps), 18, [-32768, 9, 9]));
    assert_eq!(Stop::Sums.number(), 15);
}

/// An entry that calls `callee`, and a procedure 1 that does nothing.
fn calling(callee: u16) -> Vec<u8> {
    file(&[&[1, 1, 0, 4], &[4, 3, 0, 0, 2], &[15, 0, callee], &[4]])
}

#[test]
fn unreached() {
    let (reached, unreached) = (calling(1), calling(0));
    let mut out = [7; 65];
    assert_eq!(annotate(&unreached, &mut out), Err(Error::Refused(Refusal::Unreached)));
    assert_eq!(out, [7; 65]);
    assert_eq!(annotate(&reached, &mut out), Ok(&mut calling(1)[..]));
    assert_eq!(check(&unreached), Err(Error::Refused(Refusal::Unreached)));
    assert_eq!(check(&reached), Ok(()));
    assert_eq!(ran(&unreached, 8, 272, 3), Err(Error::Refused(Refusal::Unreached)));
    assert_eq!(ran(&reached, 8, 272, 3), Ok((Ending::Finished, 1)));
    assert_eq!(Refusal::Unreached.number(), 17);
}

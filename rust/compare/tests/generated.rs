//! What is generated: most jobs are annotated and run to their end, some have procedures that are not reached or conditions with what may not stand there.
use compare::{generate, random::Random};
use reference::{annotate, check, run, run_plainly, Ending, Lent, Plain};

#[test]
fn shares() {
    let mut random = Random::new(1);
    let (mut written, mut finished, mut unreached, mut out_of_form) = (0, 0, 0, 0);
    for _ in 0..1000 {
        match annotate(&generate::job(&mut random), 65536) {
            Ok(file) => {
                written += 1;
                finished += (run(&file, &Lent::program()).ending == Ending::Finished) as usize;
            }
            Err(17) => unreached += 1,
            Err(number) => out_of_form += (number == 2) as usize,
        }
    }
    assert!(written > 550 && finished > 350, "{written} are annotated, {finished} finish");
    assert!((50..200).contains(&unreached), "{unreached} are refused with 17");
    assert!((5..60).contains(&out_of_form), "{out_of_form} are refused with 2");
}

/// Demand 3 on a file, its source or itself: "the printed numbers agree", and the runs end alike where there is room.
fn alike(file: &[u8], source: &[u8]) {
    let steps = 20_000;
    let ran = run(file, &Lent { steps, ..Lent::program() });
    let Plain { printed, ended } = run_plainly(source, steps).unwrap();
    match ran.ending {
        Ending::Finished => assert!(ended && printed == ran.printed),
        Ending::Stopped(15) => assert!(!ended && printed == ran.printed),
        _ => assert!(printed.starts_with(&ran.printed)),
    }
}

fn equal_prints() {
    let mut random = Random::new(2);
    for _ in 0..4000 {
        let source = generate::job(&mut random);
        let Ok(file) = annotate(&source, 65536) else { continue };
        assert_eq!(check(&file), Ok(()), "what the annotator writes is accepted");
        alike(&file, &source);
        for _ in 0..4 {
            let other = generate::damaged(&mut random, &file);
            if check(&other) == Ok(()) {
                alike(&other, &other);
            }
        }
    }
}

#[test]
fn plain_runs() {
    // a plain run has no end of frames
    std::thread::Builder::new().stack_size(1 << 28).spawn(equal_prints).unwrap().join().unwrap();
}

//! Every file that the gate puts to the checker, the annotator and the runner, with the answers that it compares them with.
use compare::packs;
use reference::{annotate, check, run, Lent};

fn answers() {
    let mut out = Vec::new();
    let jobs = packs::jobs();
    assert!(jobs.len() > 250, "the packs are there");
    for (name, file) in jobs {
        let checked = check(&file).map_or_else(|n| format!("refused {n}"), |_| "accepted".into());
        out.extend(format!("{name} {checked}\n").into_bytes());
        out.extend(annotate(&file, 65536).unwrap_or_else(|n| format!("refused {n}\n").into_bytes()));
        out.extend(run(&file, &Lent::program()).lines().into_bytes());
    }
    assert!(out == std::fs::read(packs::folder().join("stdout")).unwrap(), "every answer is the one that the gate asks for");
}

#[test]
fn right_answers() {
    // the deepest nesting takes more than a test's stack
    std::thread::Builder::new().stack_size(1 << 28).spawn(answers).unwrap().join().unwrap();
}

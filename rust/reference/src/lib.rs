//! Document 01 anew, with what C-14, C-15, C-18 and C-20 of document 02 change, in Rust: what the annotator, the checker and the runner answer. It shares
//! nothing with the proved programs, so that the two can be held against each other. Written for reading, not for speed or small memory.

mod annotate;
mod check;
mod file;
mod plain;
mod reached;
mod regions;
mod run;
mod typing;
mod values;

pub use plain::Plain;
pub use run::{Ending, Held, Lent, Most, Run};

use file::Program;

/// The annotator: the annotated file, or the number of the refusal.
pub fn annotate(bytes: &[u8], lent: usize) -> Result<Vec<u8>, u8> {
    let program = stages(bytes)?;
    if program.is_annotated() {
        return Err(6);
    }
    let classes = regions::declared_classes_ok(&program) && annotate::call_classes_ok(&program);
    if !classes {
        return Err(7);
    }
    let out = file::written(&annotate::annotated(&program));
    if out.len() > 65536 || out.len() > lent {
        return Err(9);
    }
    Ok(out)
}

/// The checker: accepted, or the number of the refusal.
pub fn check(bytes: &[u8]) -> Result<(), u8> {
    accepted(bytes).map(|_| ())
}

/// The runner in lent memory.
pub fn run(bytes: &[u8], lent: &Lent) -> Run {
    run_watched(bytes, lent, &mut |_| {})
}

/// .. with what is held at the start and after each step.
pub fn run_watched(bytes: &[u8], lent: &Lent, watch: &mut dyn FnMut(Held)) -> Run {
    match accepted(bytes) {
        Ok(program) => run::run(&program, lent, watch),
        Err(number) => Run::refused(number),
    }
}

/// The plain run of demand 3, of an annotated file or of its source, in so many steps at most.
pub fn run_plainly(bytes: &[u8], steps: u64) -> Result<Plain, u8> {
    Ok(plain::plain_run(&stages(bytes)?, steps))
}

fn accepted(bytes: &[u8]) -> Result<Program, u8> {
    let program = stages(bytes)?;
    if !regions::declared_classes_ok(&program) {
        return Err(7);
    }
    if !check::rules_ok(&program) {
        return Err(8);
    }
    Ok(program)
}

/// Numbers 1 to 5, then 17.
fn stages(bytes: &[u8]) -> Result<Program, u8> {
    let words = file::words(bytes).ok_or(1)?;
    if !file::form_ok(&words) {
        return Err(2);
    }
    let program = file::read(&words);
    if !file::conditions_ok(&program) {
        return Err(2);
    }
    if !typing::typing_ok(&program) {
        return Err(3);
    }
    if !values::values_ok(&program) {
        return Err(4);
    }
    if !regions::regions_ok(&program) {
        return Err(5);
    }
    if !reached::all_reached(&program) {
        return Err(17);
    }
    Ok(program)
}

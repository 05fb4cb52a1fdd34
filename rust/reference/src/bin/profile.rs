//! What a job holds while it runs, a line "STEP CELLS REGIONS FRAMES PROCEDURE" for the start and for each step, for tools/draw-memory:
//!
//!     cargo run --release -p reference --bin profile -- FILE
//!
//! FILE is a job file, which is annotated unless it is. How the run ended goes to standard error.
use reference::{annotate, run_watched, Ending, Held, Lent};
use std::io::{BufWriter, Write};

fn profile(path: &str) -> Result<(), String> {
    let file = std::fs::read(path).map_err(|e| format!("{path}: {e}"))?;
    let file = match annotate(&file, 65536) {
        Err(6) => file,
        Err(n) => return Err(format!("{path}: refused {n}")),
        Ok(annotated) => annotated,
    };
    let mut out = BufWriter::new(std::io::stdout().lock());
    let mut failed = false;
    let mut line =
        |h: Held| failed |= writeln!(out, "{} {} {} {} p{}", h.steps, h.cells, h.regions, h.frames, h.procedure).is_err();
    let run = run_watched(&file, &Lent::program(), &mut line);
    if out.flush().is_err() || failed {
        return Err("the lines could not be written".into());
    }
    match run.ending {
        Ending::Refused(n) => return Err(format!("{path}: refused {n}")),
        Ending::Finished => eprintln!("finished after {} steps", run.steps),
        Ending::Stopped(n) => eprintln!("stopped {n} after {} steps", run.steps),
    }
    Ok(())
}

fn main() {
    let Some(path) = std::env::args().nth(1) else {
        eprintln!("usage: profile FILE");
        std::process::exit(2);
    };
    // the deepest nesting takes more than a usual stack
    let work = move || profile(&path).map_err(|e| eprintln!("{e}")).is_ok();
    let thread = std::thread::Builder::new().stack_size(1 << 28).spawn(work).unwrap();
    std::process::exit(if thread.join().unwrap_or(false) { 0 } else { 1 });
}

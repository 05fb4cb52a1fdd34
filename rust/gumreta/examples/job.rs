//! Annotates a job file, checks and runs it, and prints its log and how it ended: cargo run --release -p gumreta --example job -- FILE
use gumreta::{annotate_to_vec, check, run, Memory};
use std::error::Error;

fn job(path: &str) -> Result<(), Box<dyn Error>> {
    let file = std::fs::read(path).map_err(|e| format!("{path}: {e}"))?;
    let annotated = annotate_to_vec(&file)?;
    println!("annotated: {} records", annotated.len() / 16);
    check(&annotated)?;
    println!("accepted");
    let mut memory = Memory::program();
    let ran = run(&annotated, memory.lent(), 1_000_000)?;
    for n in ran.printed() {
        println!("{n}");
    }
    ran.ending.finished()?;
    println!("{ran}");
    Ok(())
}

fn main() {
    let Some(path) = std::env::args().nth(1) else {
        eprintln!("usage: job FILE (a job file without creates and removes)");
        std::process::exit(2);
    };
    if let Err(error) = job(&path) {
        eprintln!("{error}");
        std::process::exit(1);
    }
}

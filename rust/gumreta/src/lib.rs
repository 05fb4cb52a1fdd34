//! Gumreta's annotator, checker and runner from Rust: safe functions over the proved static library (`crates/gumreta`; docs/LIBRARY.md).
//!
//! What is proved ends at the functions of `raw`; this crate turns slices into pointers and lengths, and numbers into enums.
//!
//! ```
//! let job = std::fs::read("../../examples/reverse.job")?;
//! let annotated = gumreta::annotate_to_vec(&job)?;
//! gumreta::check(&annotated)?;
//! let mut memory = gumreta::Memory::program();
//! let run = gumreta::run(&annotated, memory.lent(), 1_000_000)?;
//! assert_eq!(run.to_string(), "finished after 1859 steps");
//! assert!(run.printed().eq(1..=30));
//! # Ok::<(), Box<dyn std::error::Error>>(())
//! ```
#![warn(missing_docs)]

mod answers;
mod memory;
mod raw;

pub use answers::{Ending, Error, Refusal, Stop};
pub use memory::{Lent, Memory, CELL_WORDS, FRAME_WORDS, REGION_WORDS};
use std::fmt;

/// The release of this crate, as c/gumreta.h has it: 10,000 a major one, 100 a minor one, 1 a patch.
pub const VERSION: u64 = 40200;

/// No annotated file is longer.
pub const MAX_BYTES: usize = 65536;

/// A call takes less of the stack (docs/LIBRARY.md has what was measured). A thread of the standard library has 2 MiB.
pub const STACK_BYTES: usize = 1_572_864;

/// The release of the archive that is linked: [`VERSION`] where the two belong together.
pub fn version() -> u64 {
    // SAFETY: it takes nothing and gives a number.
    unsafe { raw::gumreta_version() }
}

/// The annotated file, which is the front part of `out`; bytes behind it keep their contents, and after a refusal all do.
pub fn annotate<'a>(file: &[u8], out: &'a mut [u8]) -> Result<&'a mut [u8], Error> {
    let mut written = 0;
    // SAFETY: each pointer stands for as many bytes as the length beside it says; `out` is borrowed alone.
    let number = unsafe { raw::gumreta_annotate(file.as_ptr(), file.len(), out.as_mut_ptr(), out.len(), &mut written) };
    answers::done(number)?;
    Ok(&mut out[..written])
}

/// The annotated file, in memory of its own.
pub fn annotate_to_vec(file: &[u8]) -> Result<Vec<u8>, Error> {
    let mut out = vec![0; MAX_BYTES];
    let written = annotate(file, &mut out)?.len();
    out.truncate(written);
    Ok(out)
}

/// Whether the checker accepts an annotated file.
pub fn check(file: &[u8]) -> Result<(), Error> {
    // SAFETY: the pointer stands for as many bytes as the length says.
    answers::done(unsafe { raw::gumreta_check(file.as_ptr(), file.len()) })
}

/// What a run came to.
#[derive(Clone, Copy, Debug, PartialEq, Eq)]
#[must_use]
pub struct Run<'a> {
    /// Whether it finished.
    pub ending: Ending,
    /// How many steps were done.
    pub steps: usize,
    words: &'a [u32],
}

impl<'a> Run<'a> {
    /// The numbers printed, in order.
    pub fn printed(&self) -> impl ExactSizeIterator<Item = i32> + 'a {
        self.words.iter().map(|&w| w as i32)
    }
}

impl fmt::Display for Run<'_> {
    fn fmt(&self, f: &mut fmt::Formatter) -> fmt::Result {
        write!(f, "{} after {} steps", self.ending, self.steps)
    }
}

/// Checks a file and runs it in lent memory for at most `steps` steps. After a refusal all lent memory is as it was.
pub fn run<'a>(file: &[u8], lent: Lent<'a>, steps: usize) -> Result<Run<'a>, Error> {
    let Lent { cells, regions, frames, prints } = lent;
    let (mut done, mut printed) = (0, 0);
    // SAFETY: each pointer stands for as many elements as the length behind it says; the four memories are borrowed alone.
    let number = unsafe {
        raw::gumreta_run(
            file.as_ptr(),
            file.len(),
            cells.as_mut_ptr(),
            cells.len(),
            regions.as_mut_ptr(),
            regions.len(),
            frames.as_mut_ptr(),
            frames.len(),
            prints.as_mut_ptr(),
            prints.len(),
            steps,
            &mut done,
            &mut printed,
        )
    };
    Ok(Run { ending: answers::ending(number)?, steps: done, words: &prints[..printed] })
}

//! Memory that a run is lent.

/// 32-bit words of memory for a cell.
pub const CELL_WORDS: usize = 8;

/// 32-bit words of memory for a region.
pub const REGION_WORDS: usize = 2;

/// 32-bit words of memory for a frame; a printed number takes one.
pub const FRAME_WORDS: usize = 136;

/// More of a sort count as so many.
const MOST: usize = 65535;

/// What a run is lent, for each sort a slice of words of any length; what stands in them before does not matter.
pub struct Lent<'a> {
    /// [`CELL_WORDS`] for each cell.
    pub cells: &'a mut [u32],
    /// [`REGION_WORDS`] for each region.
    pub regions: &'a mut [u32],
    /// [`FRAME_WORDS`] for each frame.
    pub frames: &'a mut [u32],
    /// One for each printed number.
    pub prints: &'a mut [u32],
}

/// Memory of its own for a run, made once and lent as often as wanted.
pub struct Memory {
    cells: Vec<u32>,
    regions: Vec<u32>,
    frames: Vec<u32>,
    prints: Vec<u32>,
}

impl Memory {
    /// Room for so many cells, regions, frames and printed numbers, 65,535 of each at most.
    pub fn new(cells: usize, regions: usize, frames: usize, prints: usize) -> Memory {
        let words = |count: usize, each: usize| vec![0; count.min(MOST) * each];
        Memory {
            cells: words(cells, CELL_WORDS),
            regions: words(regions, REGION_WORDS),
            frames: words(frames, FRAME_WORDS),
            prints: words(prints, 1),
        }
    }

    /// What the runner program has: 1,024 cells, 1,024 regions, 100 frames and 1,024 printed numbers.
    pub fn program() -> Memory {
        Memory::new(1024, 1024, 100, 1024)
    }

    /// All of it, for one run.
    pub fn lent(&mut self) -> Lent<'_> {
        Lent { cells: &mut self.cells, regions: &mut self.regions, frames: &mut self.frames, prints: &mut self.prints }
    }
}

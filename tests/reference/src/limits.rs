//! Every number by which document 01 limits a text, a run or a buffer.

pub const TEXT_BYTES: usize = 16_384;
pub const NAME_BYTES: usize = 16;
pub const DEPTH: usize = 8;
pub const LAST_SITE: u32 = 255;

pub const PROCEDURES: usize = 16;
pub const COMMANDS: usize = 512;
pub const VARIABLES: usize = 16;
pub const PROPERTIES: usize = 32;

pub const STEPS: u32 = 1_024;
pub const BRANCHES: usize = 16;
pub const ROWS: usize = 64;
pub const TERMS: usize = 2_048;

pub const FRAMES: usize = 8;
pub const INPUTS: usize = 16;
pub const LOCATIONS: u32 = 16;
pub const CELLS: usize = 32;

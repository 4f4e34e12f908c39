//! The tags and limits of the image, as 01 lists them.

pub mod tag {
    pub const NAME: u8 = 1;
    pub const INCLUDE: u8 = 2;
    pub const QREG: u8 = 3;
    pub const CREG: u8 = 4;
    pub const GATE: u8 = 5;
    pub const END: u8 = 6;
    pub const U: u8 = 16;
    pub const CX: u8 = 17;
    pub const MEASURE: u8 = 18;
    pub const RESET: u8 = 19;
    pub const BARRIER: u8 = 20;
    pub const CALL: u8 = 21;
    pub const IF: u8 = 22;
}

pub mod limit {
    pub const IMAGE: usize = 65_536;
    pub const NAMES: usize = 512;
    pub const NAME_BYTES: usize = 64;
    pub const GATES: usize = 128;
    /// QREG and CREG fields together.
    pub const REGISTERS: usize = 128;
    pub const COUNTED: usize = 32;
    pub const DEPTH: usize = 64;
    pub const IFS: usize = 16;
    pub const BITS: u128 = 4_096;
    pub const ENTRIES: u64 = 4_096;
}

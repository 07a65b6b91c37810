//! The table of limits. Both ends are allowed.

pub const VARIABLES: usize = 16;
pub const COEFFICIENT: i32 = 1_000_000;
pub const RIGHT_SIDE: i64 = 20_000_000_000_000;
pub const VALUE: i32 = 1_000_000;
pub const JOB_ROWS: usize = 64;
pub const TABLE_ROWS: usize = 512;
pub const PREMISES: usize = 32;
pub const MULTIPLIER: u16 = 10_000;
pub const DIVISOR: u32 = 1_000_000;
pub const LINES: usize = 8;
pub const CALLS: usize = 16;
pub const BATCHES: usize = 16;
pub const LENGTH: u32 = 1_000_000;
pub const FILE_BYTES: usize = 65_536;

pub fn coefficient_ok(c: i32) -> bool {
    (-COEFFICIENT..=COEFFICIENT).contains(&c)
}

pub fn right_side_ok(r: i64) -> bool {
    (-RIGHT_SIDE..=RIGHT_SIDE).contains(&r)
}

pub fn value_ok(v: i32) -> bool {
    (-VALUE..=VALUE).contains(&v)
}

//! The kinds of nodes by their names.

pub const ADDITION: u8 = 1;
pub const SUBTRACTION: u8 = 2;
pub const MULTIPLICATION: u8 = 3;
pub const DIVISION: u8 = 4;
pub const CONSTANT: u8 = 5;
pub const CONSTVEC: u8 = 6;
pub const CONSTMAT: u8 = 7;
pub const COMPOSEVECTOR: u8 = 8;
pub const VECTORFROMSCALAR: u8 = 9;
pub const DECOMPOSEVECTOR: u8 = 10;
pub const COMPOSEMATRIX: u8 = 11;
pub const MATRIXFROMCOLUMNS: u8 = 12;
pub const MATRIXFROMROWS: u8 = 13;
pub const DOT: u8 = 14;
pub const CROSS: u8 = 15;
pub const MATVECMULTIPLICATION: u8 = 16;
pub const TRANSPOSE: u8 = 17;
pub const MIN: u8 = 18;
pub const MAX: u8 = 19;
pub const ABS: u8 = 20;
pub const FMOD: u8 = 21;
pub const SELECT: u8 = 22;
pub const CLAMP: u8 = 23;
pub const CALL: u8 = 24;

/// Every pair of a kind from 1 to 23 and a legal type byte.
pub fn all() -> Vec<(u8, u8)> {
    let pairs = (1..=23).flat_map(|kind| (0..=3).map(move |ty| (kind, ty)));
    pairs
        .filter(|&(kind, ty)| independent::ports(kind, ty).is_some())
        .collect()
}

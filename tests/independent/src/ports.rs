//! The port list: what each kind reads and what it gives.

pub const SCALAR: u8 = 1;
pub const VECTOR: u8 = 2;
pub const MATRIX: u8 = 3;

/// The kind of a call, whose ports are its callee's.
pub const CALL: u8 = 24;

/// The types of a node's operands and of its results.
#[derive(Clone, Copy, Debug)]
pub struct Ports {
    pub operands: &'static [u8],
    pub results: &'static [u8],
}

/// The words of a value of this type.
pub fn type_words(ty: u8) -> usize {
    match ty {
        SCALAR => 1,
        VECTOR => 3,
        _ => 16,
    }
}

/// `count` operands of the one type T, and a result of it.
fn same(ty: u8, count: usize) -> Option<Ports> {
    const TYPES: [[u8; 4]; 3] = [[SCALAR; 4], [VECTOR; 4], [MATRIX; 4]];
    if !(1..=3).contains(&ty) {
        return None;
    }
    let row: &'static [u8; 4] = &TYPES[ty as usize - 1];
    Some(Ports {
        operands: &row[..count],
        results: &row[..1],
    })
}

/// Ports that do not depend on T; their type byte is 0.
fn fixed(ty: u8, operands: &'static [u8], results: &'static [u8]) -> Option<Ports> {
    (ty == 0).then_some(Ports { operands, results })
}

/// The ports of kinds 1 to 23, or none for an unknown kind or a wrong type byte.
pub fn ports(kind: u8, ty: u8) -> Option<Ports> {
    const S: u8 = SCALAR;
    const V: u8 = VECTOR;
    const M: u8 = MATRIX;
    match kind {
        1..=4 | 18 | 19 | 21 => same(ty, 2),
        5 => fixed(ty, &[], &[S]),
        6 => fixed(ty, &[], &[V]),
        7 => fixed(ty, &[], &[M]),
        8 => fixed(ty, &[S, S, S], &[V]),
        9 => fixed(ty, &[S], &[V]),
        10 => fixed(ty, &[V], &[S, S, S]),
        11 => fixed(ty, &[S; 16], &[M]),
        12 | 13 => fixed(ty, &[V, V, V, V], &[M]),
        14 => fixed(ty, &[V, V], &[S]),
        15 => fixed(ty, &[V, V], &[V]),
        16 => fixed(ty, &[M, V], &[V]),
        17 => fixed(ty, &[M], &[M]),
        20 => same(ty, 1),
        22 => same(ty, 4),
        23 => same(ty, 3),
        _ => None,
    }
}

/// The words of a constant's payload, for kinds 5 to 7.
pub fn constant_words(kind: u8) -> Option<usize> {
    match kind {
        5 => Some(1),
        6 => Some(3),
        7 => Some(16),
        _ => None,
    }
}

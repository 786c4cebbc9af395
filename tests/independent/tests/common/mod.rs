//! Tables and lists that more than one test uses.
#![allow(dead_code)] // No test uses all of them.

use independent::Refusal;

/// 01's example A: the product of two scalars.
pub const A: [u8; 30] = [
    0x49, 0x46, 0x47, 0x01, 0x00, 0x01, 0x1E, 0x00, 0x01, 0x00, 0x02, 0x01, 0x01, 0x00, 0x01, 0x01,
    0x01, 0x01, 0x00, 0x00, 0x01, 0x00, 0x03, 0x01, 0x00, 0x00, 0x00, 0x00, 0x00, 0x01,
];

/// 01's example K: one scalar input as its output and no node.
pub const K: [u8; 19] = [
    0x49, 0x46, 0x47, 0x01, 0x00, 0x01, 0x13, 0x00, 0x01, 0x00, 0x01, 0x01, 0x00, 0x00, 0x01, 0x01,
    0x00, 0x00, 0x00,
];

pub fn refused<T>(number: u32, place: usize) -> Result<T, Refusal> {
    Err(Refusal { number, place })
}

/// Sets the length field to the table's length.
pub fn mend_length(table: &mut [u8]) {
    let length = table.len() as u16;
    table[6..8].copy_from_slice(&length.to_le_bytes());
}

/// A table of two functions without inputs: function 1 of `count` constants of
/// this kind, and function 2 that calls it `calls` times and has `more` scalar constants.
pub fn called(kind: u8, count: u16, calls: u16, more: u16) -> Vec<u8> {
    let (words, ty) = [(1, 1), (3, 2), (16, 3)][kind as usize - 5];
    let mut table = b"IFG\x01\x00\x02\x00\x00".to_vec();
    table.extend([1, 0, 0, 1]);
    table.extend(count.to_le_bytes());
    table.extend([ty, 1, 0, 0]);
    for id in 1..=count {
        table.extend(id.to_le_bytes());
        table.extend([kind, 0]);
        for _ in 0..words {
            table.extend(f64::from(id).to_le_bytes());
        }
    }
    table.extend([2, 0, 0, 1]);
    table.extend((calls + more).to_le_bytes());
    table.extend([ty, 1, 0, 0]);
    for id in 1..=calls {
        table.extend(id.to_le_bytes());
        table.extend([24, 0, 1, 0, 0]);
    }
    for id in calls + 1..=calls + more {
        table.extend(id.to_le_bytes());
        table.extend([5, 0]);
        table.extend(1f64.to_le_bytes());
    }
    mend_length(&mut table);
    table
}

/// A list of version 2 from its fields; a constant is four numbers of 16 bits.
pub fn list(arguments: u8, words: u16, instructions: &[&[u16]], outputs: &[u16]) -> Vec<u8> {
    let mut code = b"IFR\x02\x00".to_vec();
    code.extend([arguments, outputs.len() as u8, 0]);
    code.extend((instructions.len() as u16).to_le_bytes());
    code.extend(words.to_le_bytes());
    for instruction in instructions {
        code.extend([instruction[0] as u8, instruction[1] as u8]);
        for address in &instruction[2..] {
            code.extend(address.to_le_bytes());
        }
    }
    for address in outputs {
        code.extend(address.to_le_bytes());
    }
    code
}

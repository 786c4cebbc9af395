//! The settled examples A to O of document 01.

mod common;

use common::{A, K, called, mend_length, refused};
use independent::*;

const A_CODE: [u8; 20] = [
    0x49, 0x46, 0x52, 0x01, 0x00, 0x02, 0x01, 0x00, 0x01, 0x00, 0x03, 0x00, 0x03, 0x01, 0x00, 0x00,
    0x01, 0x00, 0x02, 0x00,
];

const K_CODE: [u8; 14] = [
    0x49, 0x46, 0x52, 0x01, 0x00, 0x01, 0x01, 0x00, 0x00, 0x00, 0x01, 0x00, 0x00, 0x00,
];

/// A with one byte changed.
fn a_with(at: usize, byte: u8) -> Vec<u8> {
    let mut table = A.to_vec();
    table[at] = byte;
    table
}

fn run_a(a: f64, b: f64) -> u64 {
    let arguments = [a.to_bits(), b.to_bits()];
    let mut work = [0xABCD; 5];
    let mut out = [0xABCD; 2];
    assert_eq!(run(&A_CODE, &arguments, &mut work, &mut out), Ok(1));
    assert_eq!(work[..2], arguments);
    assert_eq!(work[2], out[0]);
    assert_eq!(work[3..], [0xABCD; 2]);
    assert_eq!(out[1], 0xABCD);
    assert_eq!(evaluate(&A, 1, &arguments), vec![out[0]]);
    out[0]
}

#[test]
fn a() {
    assert_eq!(check(&A), Ok(1));
    assert_eq!(operations(&A, 1), Ok(1));
    assert_eq!(words(&A, 1), Ok(3));
    assert_eq!(code_length(&A, 1), Ok(20));
    assert_eq!(compile(&A, 1, 20), Ok(A_CODE.to_vec()));
    assert_eq!(compile(&A, 1, 19), refused(17, 0));
    assert_eq!(compile(&A, 2, 20), refused(14, 0));
    let text = "accepted 1\nfunction 1 inputs 2 outputs 1 nodes 1 operations 1 words 3 code 20\n";
    assert_eq!(listing(&A), text.as_bytes());
}

#[test]
fn b_to_i() {
    assert_eq!(check(&[]), refused(1, 0));
    assert_eq!(listing(&[]), b"refused 1 at 0\n");
    assert_eq!(check(&a_with(6, 0x1F)), refused(4, 6));
    assert_eq!(check(&a_with(3, 2)), refused(3, 3));
    assert_eq!(check(&a_with(10, 9)), refused(6, 8));
    assert_eq!(check(&a_with(22, 0x3F)), refused(6, 20));
    assert_eq!(check(&a_with(16, 2)), refused(12, 17));
    assert_eq!(check(&a_with(29, 2)), refused(11, 27));
    assert_eq!(check(&a_with(24, 1)), refused(13, 20));
}

#[test]
fn j() {
    assert_eq!(run_a(3.0, 0.5), 1.5f64.to_bits());
}

#[test]
fn k() {
    assert_eq!(check(&K), Ok(1));
    assert_eq!(compile(&K, 1, 14), Ok(K_CODE.to_vec()));
    let text = "accepted 1\nfunction 1 inputs 1 outputs 1 nodes 0 operations 0 words 1 code 14\n";
    assert_eq!(listing(&K), text.as_bytes());
    assert_eq!(evaluate(&K, 1, &[7]), vec![7]);
}

#[test]
fn l() {
    assert_eq!(run_a(1e200, 1e200), f64::INFINITY.to_bits());
}

#[test]
fn m() {
    let table = a_with(22, 4);
    let code = compile(&table, 1, 20).unwrap();
    let mut out = [0];
    assert_eq!(run(&code, &[0, 0], &mut [0; 3], &mut out), Ok(1));
    assert_eq!(out, [0x7FF8_0000_0000_0000]);
    assert_eq!(evaluate(&table, 1, &[0, 0]), out);
}

#[test]
fn n() {
    let table = called(5, 255, 16, 0);
    assert_eq!(operations(&table, 2), Ok(4096));
    assert_eq!(words(&table, 2), Ok(4080));
    let code = compile(&table, 2, 100_000).unwrap();
    assert_eq!(code_length(&table, 2), Ok(code.len() as u64));
    let mut out = [0];
    assert_eq!(run(&code, &[], &mut [0; 4080], &mut out), Ok(1));
    assert_eq!(out, [1f64.to_bits()]);
    assert_eq!(compile(&called(5, 255, 16, 1), 2, 100_000), refused(15, 0));
}

#[test]
fn o() {
    let table = called(7, 256, 2, 0);
    assert_eq!(words(&table, 2), Ok(8192));
    let code = compile(&table, 2, 66_604).unwrap();
    assert_eq!(code.len(), 66_604);
    assert_eq!(compile(&table, 2, 66_603), refused(17, 0));
    let (mut work, mut out) = ([0; 8192], [0; 16]);
    assert_eq!(run(&code, &[], &mut work, &mut out), Ok(16));
    assert_eq!(out, [1f64.to_bits(); 16]);
    assert_eq!(compile(&called(7, 256, 2, 1), 2, 100_000), refused(16, 0));
}

#[test]
fn sixteen_functions_of_256_calls_answer_at_once() {
    let mut table = b"IFG\x01\x00\x10\x00\x00".to_vec();
    for function in 1..=16u8 {
        table.extend([function, 0, 1, 1, 0, 1, 1, 1, 0, 0, 0]);
        for id in 1..=256u16 {
            table.extend(id.to_le_bytes());
            if function == 1 {
                table.extend([20, 1, 0, 0, 0]);
            } else {
                table.extend([24, 0, function - 1, 0, 1, 0, 0, 0]);
            }
        }
    }
    mend_length(&mut table);
    assert_eq!(check(&table), Ok(16));
    assert_eq!(compile(&table, 16, 100_000), refused(15, 0));
    let text = String::from_utf8(listing(&table)).unwrap();
    assert!(text.contains("function 1 inputs 1 outputs 1 nodes 256 operations 256 words 257 "));
    assert!(text.contains(
        "function 16 inputs 1 outputs 1 nodes 256 operations over words over code none\n"
    ));
}

#[test]
fn malformed_codes() {
    for length in 0..A_CODE.len() {
        assert_eq!(
            run(&A_CODE[..length], &[0, 0], &mut [0; 3], &mut [0]),
            refused(18, 0)
        );
    }
    let mut longer = A_CODE.to_vec();
    longer.push(0);
    assert_eq!(run(&longer, &[0, 0], &mut [0; 3], &mut [0]), refused(18, 0));
    let mut code = A_CODE;
    code[14] = 2; // an operand that reaches into the result
    assert_eq!(run(&code, &[0, 0], &mut [0; 3], &mut [0]), refused(18, 0));
    assert_eq!(run(&A_CODE, &[0], &mut [0; 3], &mut [0]), refused(19, 0));
    assert_eq!(
        run(&A_CODE, &[0, NAN], &mut [0; 3], &mut [0]),
        refused(20, 0)
    );
    assert_eq!(run(&A_CODE, &[0, 0], &mut [0; 2], &mut [0]), refused(21, 0));
    assert_eq!(run(&A_CODE, &[0, 0], &mut [0; 3], &mut []), refused(21, 0));
}

//! Board lists of version 2: what document 02 says of words used again.

mod common;

use common::{A, K, list};
use independent::*;

const A_CODE: [u8; 22] = [
    0x49, 0x46, 0x52, 0x02, 0x00, 0x02, 0x01, 0x00, 0x01, 0x00, 0x03, 0x00, 0x03, 0x01, 0x02, 0x00,
    0x00, 0x00, 0x01, 0x00, 0x02, 0x00,
];

const K_CODE: [u8; 14] = [
    0x49, 0x46, 0x52, 0x02, 0x00, 0x01, 0x01, 0x00, 0x00, 0x00, 0x01, 0x00, 0x00, 0x00,
];

/// What a buffer holds before a call.
const MARK: u64 = 0xABCD;

fn refused<T>(number: u32) -> Result<T, Refusal> {
    Err(Refusal { number, place: 0 })
}

fn word(value: f64) -> u64 {
    value.to_bits()
}

/// The code with the byte at a place changed.
fn with(code: &[u8], at: usize, byte: u8) -> Vec<u8> {
    let mut code = code.to_vec();
    code[at] = byte;
    code
}

/// What a run of A's list with this change answers.
fn changed(at: usize, byte: u8) -> Result<usize, Refusal> {
    let code = with(&A_CODE, at, byte);
    run(&code, &[word(3.0), word(0.5)], &mut [0; 8], &mut [0; 1])
}

#[test]
fn a() {
    assert_eq!(compile_version(&A, 1, 2, 22), Ok(A_CODE.to_vec()));
    let (mut work, mut out) = ([MARK; 4], [MARK; 2]);
    let arguments = [word(3.0), word(0.5)];
    assert_eq!(run(&A_CODE, &arguments, &mut work, &mut out), Ok(1));
    assert_eq!(work, [word(3.0), word(0.5), word(1.5), MARK]);
    assert_eq!(out, [word(1.5), MARK]);
}

#[test]
fn k() {
    assert_eq!(compile_version(&K, 1, 2, 14), Ok(K_CODE.to_vec()));
}

#[test]
fn order_of_refusals() {
    for version in [0, 3, 256, 257, 512, 65_535] {
        assert_eq!(compile_version(&A, 1, version, 0), refused(31));
        assert_eq!(compile_version(&A, 2, version, 0), refused(14));
        assert_eq!(compile_version(&A[..7], 2, version, 0), refused(1));
    }
    assert_eq!(compile_version(&A, 1, 2, 21), refused(17));
    assert_eq!(compile_version(&A, 1, 1, 20), compile(&A, 1, 20));
    assert_eq!(compile_version(&A, 1, 1, 19), refused(17));
}

#[test]
fn malformed_codes() {
    for length in 0..A_CODE.len() {
        let got = run(&A_CODE[..length], &[0, 0], &mut [0; 3], &mut [0]);
        assert_eq!(got, refused(18));
    }
    let longer = [&A_CODE[..], &[0]].concat();
    let got = run(&longer, &[0, 0], &mut [0; 3], &mut [0]);
    assert_eq!(got, refused(18));
    // Another version, and the versions exchanged.
    for version in [0, 1, 3, 255] {
        assert_eq!(changed(3, version), refused(18));
    }
    assert_eq!(changed(4, 1), refused(18));
    let version_1 = compile(&A, 1, 20).unwrap();
    assert_eq!(
        check_code(&with(&version_1, 3, 2)).err(),
        refused::<()>(18).err()
    );
    // The word count one more and one less.
    assert_eq!(changed(10, 4), refused(18));
    assert_eq!(changed(10, 2), refused(18));
    // The result at 3 and at 1, with the word count for 2; at 1 the output was never written.
    assert_eq!(changed(14, 3), refused(18));
    assert_eq!(changed(14, 1), refused(18));
    // An operand that is the result alone; the output at an argument, and behind all words.
    assert_eq!(changed(16, 2), refused(18));
    assert_eq!(changed(20, 1), Ok(1));
    assert_eq!(changed(20, 3), refused(18));
}

#[test]
fn all_operands_are_read_before_the_result_is_written() {
    // The cross product of words 0-2 and 1-3 on words 1-3; then the transpose of a matrix on itself.
    let code = list(4, 4, &[&[15, 0, 1, 0, 1]], &[0, 1, 2, 3]);
    let arguments = [2.0, 3.0, 5.0, 7.0].map(word);
    let mut out = [0; 4];
    assert_eq!(run(&code, &arguments, &mut [0; 4], &mut out), Ok(4));
    let wanted = [
        2.0,
        3.0 * 7.0 - 5.0 * 5.0,
        5.0 * 3.0 - 2.0 * 7.0,
        2.0 * 5.0 - 3.0 * 3.0,
    ];
    assert_eq!(out, wanted.map(word));

    let code = list(16, 16, &[&[17, 0, 0, 0]], &[1, 4, 2, 8, 7, 13]);
    let arguments: Vec<u64> = (0..16).collect();
    let mut out = [0; 6];
    assert_eq!(run(&code, &arguments, &mut [0; 16], &mut out), Ok(6));
    assert_eq!(out, [4, 1, 8, 2, 13, 7]);
}

#[test]
fn words_never_written_stay() {
    let code = list(1, 6, &[&[20, 1, 5, 0], &[20, 1, 2, 5]], &[2]);
    let (mut work, mut out) = ([MARK; 7], [MARK; 1]);
    assert_eq!(run(&code, &[word(-4.0)], &mut work, &mut out), Ok(1));
    assert_eq!(
        work,
        [word(-4.0), MARK, word(4.0), MARK, MARK, word(4.0), MARK]
    );
    assert_eq!(out, [word(4.0)]);
    assert_eq!(run(&code, &[0], &mut work[..5], &mut out), refused(21));
    // The next point finds what the one before left.
    let arguments = [word(-4.0), word(9.0)];
    let (mut work, mut out) = ([MARK; 7], [MARK; 2]);
    assert_eq!(run_points(&code, 2, &arguments, &mut work, &mut out), Ok(2));
    assert_eq!(
        work,
        [word(9.0), MARK, word(9.0), MARK, MARK, word(9.0), MARK]
    );
    assert_eq!(out, [word(4.0), word(9.0)]);
}

//! A router's own placement: what document 02 says of judging it.

mod common;

use common::{A, K, called, list, mend_length, refused};
use independent::*;

/// A table of one function with id 1. An output is a type, a node and a port; a node is what stands behind its id,
/// and the ids count from 1.
fn table(inputs: &[u8], outputs: &[[u8; 3]], nodes: &[&[u8]]) -> Vec<u8> {
    let mut table = b"IFG\x01\x00\x01\x00\x00\x01\x00".to_vec();
    table.extend([inputs.len(), outputs.len(), nodes.len(), 0].map(|count| count as u8));
    table.extend(inputs);
    for &[ty, node, port] in outputs {
        table.extend([ty, node, 0, port]);
    }
    for (id, node) in (1..).zip(nodes) {
        table.extend([id, 0]);
        table.extend(*node);
    }
    mend_length(&mut table);
    table
}

/// On x and y: a = x + y, b = a · y, c = b - x, d = max(c, a), h = 0.5, e = d / h; outputs e and h. Version 1 has x and
/// y in words 0 and 1 and the results in words 2 to 7. a is read by b and, with c between them, by d.
fn read_twice() -> Vec<u8> {
    table(
        &[1, 1],
        &[[1, 6, 0], [1, 5, 0]],
        &[
            &[1, 1, 0, 0, 0, 0, 0, 1],
            &[3, 1, 1, 0, 0, 0, 0, 1],
            &[2, 1, 2, 0, 0, 0, 0, 0],
            &[19, 1, 3, 0, 0, 1, 0, 0],
            &[5, 0, 0, 0, 0, 0, 0, 0, 0xE0, 0x3F],
            &[4, 1, 4, 0, 0, 5, 0, 0],
        ],
    )
}

/// An instruction: its kind, its type, the word of its result, then its operands or its constant.
type Row = Vec<u16>;

/// The instructions of `read_twice` in version 1's order on three words: b takes the word of y, which it reads itself, c
/// that of x, d that of c, h that of b and e that of d.
fn dense() -> Vec<Row> {
    vec![
        vec![1, 1, 2, 0, 1],
        vec![3, 1, 1, 2, 1],
        vec![2, 1, 0, 1, 0],
        vec![19, 1, 0, 0, 2],
        vec![5, 0, 1, 0, 0, 0, 0x3FE0],
        vec![4, 1, 0, 0, 1],
    ]
}

const IN_ORDER: [u16; 6] = [0, 1, 2, 3, 4, 5];

/// A version 2 list of these instructions, all of scalars.
fn scalars(arguments: u8, rows: &[Row], outputs: &[u16]) -> Vec<u8> {
    let ends = rows.iter().map(|row| row[2] + 1);
    let words = ends.max().unwrap_or(0).max(arguments.into());
    let rows: Vec<&[u16]> = rows.iter().map(Vec::as_slice).collect();
    list(arguments, words, &rows, outputs)
}

/// The verdict on a list for `read_twice`.
fn judged(rows: &[Row], outputs: &[u16], numbers: &[u16]) -> Result<usize, Refusal> {
    let code = scalars(2, rows, outputs);
    assert!(check_code(&code).is_ok(), "18 would come first");
    judge_placement(&read_twice(), 1, &code, numbers)
}

/// The verdict on the dense list with a change.
fn changed(change: impl Fn(&mut Vec<Row>)) -> Result<usize, Refusal> {
    let mut rows = dense();
    change(&mut rows);
    judged(&rows, &[0, 1], &IN_ORDER)
}

fn outputs(code: &[u8], arguments: &[f64]) -> Vec<u64> {
    let arguments: Vec<u64> = arguments.iter().map(|x| x.to_bits()).collect();
    let (mut work, mut out) = (vec![0; 8192], vec![0; 128]);
    let count = run(code, &arguments, &mut work, &mut out).expect("a run");
    out.truncate(count);
    out
}

#[test]
fn our_own_list() {
    for (table, id, count) in [
        (A.to_vec(), 1, 1),
        (K.to_vec(), 1, 0),
        (read_twice(), 1, 6),
        (called(5, 255, 16, 0), 2, 4080),
        (called(7, 256, 2, 0), 2, 512),
    ] {
        let code = compile_version(&table, id, 2, usize::MAX).expect("within the limits");
        let numbers: Vec<u16> = (0..count as u16).collect();
        assert_eq!(judge_placement(&table, id, &code, &numbers), Ok(count));
    }
}

#[test]
fn other_placements() {
    let version_1 = compile(&read_twice(), 1, usize::MAX).expect("within the limits");
    let wanted = outputs(&version_1, &[3.0, 0.5]);
    assert_eq!(wanted, [7f64.to_bits(), 0.5f64.to_bits()]);
    assert_eq!(judged(&dense(), &[0, 1], &IN_ORDER), Ok(6));
    assert_eq!(outputs(&scalars(2, &dense(), &[0, 1]), &[3.0, 0.5]), wanted);

    // The constant first, and words of its own for each value, one of them far away.
    let rows = [
        vec![5, 0, 9, 0, 0, 0, 0x3FE0],
        vec![1, 1, 5, 0, 1],
        vec![3, 1, 3, 5, 1],
        vec![2, 1, 8191, 3, 0],
        vec![19, 1, 2, 8191, 5],
        vec![4, 1, 7, 2, 9],
    ];
    assert_eq!(judged(&rows, &[7, 9], &[4, 0, 1, 2, 3, 5]), Ok(6));
    assert_eq!(outputs(&scalars(2, &rows, &[7, 9]), &[3.0, 0.5]), wanted);
}

/// From all faults at once to one alone.
#[test]
fn order_of_refusals() {
    let good = scalars(2, &dense(), &[0, 1]);
    let cut = &good[..good.len() - 1];
    let judge = |code: &[u8], numbers: &[u16]| judge_placement(&read_twice(), 1, code, numbers);
    assert_eq!(judge_placement(&A[..7], 2, cut, &[]), refused(1, 0));
    assert_eq!(judge_placement(&A[..29], 2, cut, &[]), refused(4, 6));
    assert_eq!(judge_placement(&read_twice(), 2, cut, &[]), refused(14, 0));
    assert_eq!(
        judge_placement(&read_twice(), 0, &good, &IN_ORDER),
        refused(14, 0)
    );
    assert_eq!(
        judge_placement(&called(5, 255, 16, 1), 2, cut, &[]),
        refused(15, 0)
    );
    assert_eq!(
        judge_placement(&called(7, 256, 2, 1), 2, cut, &[]),
        refused(16, 0)
    );
    assert_eq!(judge(cut, &[]), refused(18, 0));
    assert_eq!(judge(cut, &IN_ORDER), refused(18, 0));
    assert_eq!(judge(&[], &IN_ORDER), refused(18, 0));
    // Doubled numbers and a wrong output beside a wrong count.
    let wrong_output = scalars(2, &dense(), &[1, 1]);
    assert_eq!(judge(&wrong_output, &[0; 5]), refused(33, 0));
    assert_eq!(judge(&wrong_output, &[0; 6]), refused(29, 1));
    assert_eq!(judge(&wrong_output, &IN_ORDER), refused(29, 6));
    assert_eq!(judge(&good, &IN_ORDER), Ok(6));
}

/// 16 goes by version 1's words, also where version 2 has room.
#[test]
fn version_1_counts() {
    let table = called(7, 256, 2, 1);
    let code = compile_version(&table, 2, 2, usize::MAX).expect("few words");
    let numbers: Vec<u16> = (0..513).collect();
    assert_eq!(judge_placement(&table, 2, &code, &numbers), refused(16, 0));
}

#[test]
fn a_version_1_list_is_18() {
    let code = compile(&A, 1, 20).expect("example A");
    assert!(check_code(&code).is_ok());
    for numbers in [&[0][..], &[], &[1], &[0, 0]] {
        assert_eq!(judge_placement(&A, 1, &code, numbers), refused(18, 0));
    }
    assert_eq!(
        judge_placement(&read_twice(), 1, &code, &[]),
        refused(18, 0)
    );
}

#[test]
fn other_counts_are_33() {
    let product = || vec![3, 1, 2, 0, 1];
    let judge = |code: &[u8], numbers: &[u16]| {
        assert!(check_code(code).is_ok(), "18 would come first");
        judge_placement(&A, 1, code, numbers)
    };
    let good = scalars(2, &[product()], &[2]);
    assert_eq!(judge(&good, &[0]), Ok(1));
    for count in [0, 2, 256, 65_536, 65_537] {
        assert_eq!(judge(&good, &vec![0; count]), refused(33, 0));
    }
    let arguments = scalars(3, &[product()], &[2]);
    assert_eq!(judge(&arguments, &[0]), refused(33, 0));
    let outputs = scalars(2, &[product()], &[2, 2]);
    assert_eq!(judge(&outputs, &[0]), refused(33, 0));
    let instructions = scalars(2, &[product(), product()], &[2]);
    for numbers in [&[0][..], &[0, 0], &[0, 1]] {
        assert_eq!(judge(&instructions, numbers), refused(33, 0));
    }
    let none = scalars(2, &[], &[1]);
    for numbers in [&[][..], &[0]] {
        assert_eq!(judge(&none, numbers), refused(33, 0));
    }
}

/// Two alike constants, their difference, and a zero of each sign: all but the difference may change places.
fn constants() -> Vec<u8> {
    let constant = |x: f64| [&[5, 0][..], &x.to_le_bytes()].concat();
    table(
        &[],
        &[[1, 3, 0], [1, 4, 0], [1, 5, 0]],
        &[
            &constant(2.0),
            &constant(2.0),
            &[2, 1, 1, 0, 0, 2, 0, 0],
            &constant(0.0),
            &constant(-0.0),
        ],
    )
}

/// The verdict on the constants' list with these operands of the difference and these outputs.
fn difference(operands: [u16; 2], outputs: [u16; 3], numbers: [u16; 5]) -> Result<usize, Refusal> {
    let rows = [
        vec![5, 0, 0, 0, 0, 0, 0x4000],
        vec![5, 0, 1, 0, 0, 0, 0x4000],
        vec![2, 1, 2, operands[0], operands[1]],
        vec![5, 0, 3, 0, 0, 0, 0],
        vec![5, 0, 4, 0, 0, 0, 0x8000],
    ];
    judge_placement(&constants(), 1, &scalars(0, &rows, &outputs), &numbers)
}

#[test]
fn numbers() {
    let outputs = [2, 3, 4];
    assert_eq!(difference([0, 1], outputs, [0, 1, 2, 3, 4]), Ok(5));
    // The first instruction is now number 1, so that the difference reads its word second.
    assert_eq!(difference([1, 0], outputs, [1, 0, 2, 3, 4]), Ok(5));
    assert_eq!(difference([0, 1], outputs, [1, 0, 2, 3, 4]), refused(29, 2));
    // Of a doubled number the later, though kind, type and constant are alike in both.
    assert_eq!(difference([0, 1], outputs, [0, 0, 2, 3, 4]), refused(29, 1));
    assert_eq!(difference([0, 1], outputs, [1, 1, 2, 3, 4]), refused(29, 1));
    assert_eq!(difference([0, 1], outputs, [0, 1, 2, 3, 3]), refused(29, 4));
    // Numbers that no instruction has.
    for number in [5, 6, 256, 65_535] {
        for at in 0..5 {
            let mut numbers = [0, 1, 2, 3, 4];
            numbers[at] = number;
            assert_eq!(difference([0, 1], outputs, numbers), refused(29, at));
        }
    }
}

/// The words that are read hold the same bits, but not by origin.
#[test]
fn origins_and_not_bits() {
    for operands in [[1, 0], [0, 0], [1, 1]] {
        assert_eq!(
            difference(operands, [2, 3, 4], [0, 1, 2, 3, 4]),
            refused(29, 2)
        );
    }
    // A sum with its operands exchanged.
    assert_eq!(changed(|rows| rows[0].swap(3, 4)), refused(29, 0));
}

#[test]
fn kinds_types_and_constants() {
    assert_eq!(changed(|rows| rows[0][0] = 2), refused(29, 0));
    assert_eq!(changed(|rows| rows[3][0] = 18), refused(29, 3));
    // Another bit of a constant, its sign, and the sign of a zero.
    assert_eq!(changed(|rows| rows[4][3] = 1), refused(29, 4));
    assert_eq!(changed(|rows| rows[4][6] = 0xBFE0), refused(29, 4));
    assert_eq!(
        difference([0, 1], [2, 4, 3], [0, 1, 2, 4, 3]),
        refused(29, 3)
    );
    // The absolute values of a vector, which nothing reads, and of its first component alone.
    let unread = table(&[2], &[[2, 0, 0]], &[&[20, 2, 0, 0, 0]]);
    let judge = |ty, words| {
        let code = list(3, words, &[&[20, ty, 3, 0]], &[0, 1, 2]);
        judge_placement(&unread, 1, &code, &[0])
    };
    assert_eq!(judge(2, 6), Ok(1));
    assert_eq!(judge(1, 4), refused(29, 0));
}

#[test]
fn operands_word_by_word() {
    // A vector and a scalar: the parts of the vector, the sum of the third and the scalar, and the vector's double.
    let table = table(
        &[2, 1],
        &[[1, 2, 0], [2, 3, 0], [1, 1, 1]],
        &[
            &[10, 0, 0, 0, 0],
            &[1, 1, 1, 0, 2, 0, 0, 1],
            &[1, 2, 0, 0, 0, 0, 0, 0],
        ],
    );
    let judge = |sum: u16, vector: [u16; 2], outputs: &[u16]| {
        let rows: [&[u16]; 3] = [
            &[10, 0, 4, 0],
            &[1, 1, sum, 6, 3],
            &[1, 2, 7, vector[0], vector[1]],
        ];
        judge_placement(&table, 1, &list(4, 10, &rows, outputs), &[0, 1, 2])
    };
    // The first part is not read again: its word is free while its neighbours are needed.
    assert_eq!(judge(4, [0, 0], &[4, 7, 8, 9, 5]), Ok(3));
    // So is the word of the scalar behind the sum, which reads it.
    assert_eq!(judge(3, [0, 0], &[3, 7, 8, 9, 5]), Ok(3));
    // The second part is an output.
    assert_eq!(judge(5, [0, 0], &[5, 7, 8, 9, 5]), refused(29, 3));
    // One word of three is not the vector's, at either end.
    assert_eq!(judge(0, [0, 0], &[0, 7, 8, 9, 5]), refused(29, 2));
    assert_eq!(judge(2, [0, 0], &[2, 7, 8, 9, 5]), refused(29, 2));
    assert_eq!(judge(4, [0, 1], &[4, 7, 8, 9, 5]), refused(29, 2));
    // A part has the vector's bits, not its origin.
    assert_eq!(judge(3, [4, 4], &[3, 7, 8, 9, 5]), refused(29, 2));
    // Outputs out of their order, and one of another value.
    assert_eq!(judge(4, [0, 0], &[4, 8, 7, 9, 5]), refused(29, 3));
    assert_eq!(judge(4, [0, 0], &[4, 7, 8, 9, 1]), refused(29, 3));
}

/// 01's slip: a's word is given to c because b has read a, though d reads it too.
#[test]
fn a_value_overwritten_before_its_last_reader() {
    let mut rows = dense();
    rows[2][2] = 2;
    rows[3][3] = 2;
    assert_eq!(judged(&rows, &[0, 1], &IN_ORDER), refused(29, 3));
    // The runner takes it, and e is another.
    let code = scalars(2, &rows, &[0, 1]);
    let wanted = [(-2.5f64).to_bits(), 0.5f64.to_bits()];
    assert_eq!(outputs(&code, &[3.0, 0.5]), wanted);
    // The same by b itself, which reads a as it writes, and by the constant, which now stands before d.
    assert_eq!(
        changed(|rows| {
            rows[1][2] = 2;
            rows[2][3] = 2;
        }),
        refused(29, 3)
    );
    let mut rows = dense();
    rows.swap(3, 4);
    rows[3][2] = 2;
    rows[5][4] = 2;
    assert_eq!(judged(&rows, &[0, 2], &[0, 1, 2, 4, 3, 5]), refused(29, 4));
    // An argument's word, before c reads it.
    assert_eq!(
        changed(|rows| {
            rows[0][2] = 0;
            rows[1][3] = 0;
            rows[3][4] = 0;
        }),
        refused(29, 2)
    );
}

#[test]
fn only_an_output() {
    assert_eq!(judged(&dense(), &[1, 0], &IN_ORDER), refused(29, 6));
    assert_eq!(judged(&dense(), &[0, 2], &IN_ORDER), refused(29, 6));
    assert_eq!(judged(&dense(), &[2, 1], &IN_ORDER), refused(29, 6));
    // The last result is written on the constant, which is an output and no longer read.
    let mut rows = dense();
    rows[5][2] = 1;
    assert_eq!(judged(&rows, &[1, 1], &IN_ORDER), refused(29, 6));
    assert_eq!(judged(&rows, &[1, 0], &IN_ORDER), refused(29, 6));
    // No instruction at all: the second of two inputs is the output.
    let second = table(&[1, 1], &[[1, 0, 1]], &[]);
    let judge = |output| judge_placement(&second, 1, &scalars(2, &[], &[output]), &[]);
    assert_eq!(judge(1), Ok(0));
    assert_eq!(judge(0), refused(29, 0));
}

#[test]
fn the_first_fault() {
    // An instruction before an output, whatever the output.
    let mut rows = dense();
    rows[5].swap(3, 4);
    assert_eq!(judged(&rows, &[1, 0], &IN_ORDER), refused(29, 5));
    // Of three instructions the first in the proposed list, whatever their numbers.
    rows[4][6] = 0x3FF0;
    assert_eq!(judged(&rows, &[0, 1], &IN_ORDER), refused(29, 4));
    rows.swap(3, 4);
    rows[3][2] = 3;
    rows[5] = vec![4, 1, 0, 3, 0];
    assert_eq!(judged(&rows, &[0, 3], &[0, 1, 2, 4, 3, 5]), refused(29, 3));
    assert_eq!(judged(&rows, &[0, 3], &[0, 1, 2, 4, 3, 0]), refused(29, 3));
    assert_eq!(judged(&rows, &[0, 3], &[0, 1, 9, 4, 3, 5]), refused(29, 2));
}

//! A layer's points in one call: what document 02 says of it.

use independent::*;

/// Two arguments a and b; the outputs are a times b, and a.
const CODE: [u8; 22] = [
    0x49, 0x46, 0x52, 0x01, 0x00, 0x02, 0x02, 0x00, 0x01, 0x00, 0x03, 0x00, 0x03, 0x01, 0x00, 0x00,
    0x01, 0x00, 0x02, 0x00, 0x00, 0x00,
];

/// No argument; the output is the constant 1.
const ONE: [u8; 24] = [
    0x49, 0x46, 0x52, 0x01, 0x00, 0x00, 0x01, 0x00, 0x01, 0x00, 0x01, 0x00, 0x05, 0x00, 0x00, 0x00,
    0x00, 0x00, 0x00, 0x00, 0xF0, 0x3F, 0x00, 0x00,
];

/// What a buffer holds before a call.
const MARK: u64 = 0xABCD;

fn words<const N: usize>(values: [f64; N]) -> [u64; N] {
    values.map(f64::to_bits)
}

/// The number of a refusal, which has place 0 and leaves both buffers.
fn refused(code: &[u8], count: u64, arguments: &[u64], room: (usize, usize)) -> u32 {
    let (mut work, mut out) = (vec![MARK; room.0], vec![MARK; room.1]);
    let refusal = run_points(code, count, arguments, &mut work, &mut out).unwrap_err();
    assert_eq!(refusal.place, 0);
    assert_eq!(work, vec![MARK; room.0]);
    assert_eq!(out, vec![MARK; room.1]);
    refusal.number
}

#[test]
fn no_points() {
    let (mut work, mut out) = ([MARK; 4], [MARK; 3]);
    assert_eq!(run_points(&CODE, 0, &[], &mut work, &mut out), Ok(0));
    assert_eq!(work, [MARK; 4]);
    assert_eq!(out, [MARK; 3]);
    assert_eq!(run_points(&CODE, 0, &[], &mut work[..3], &mut []), Ok(0));
    assert_eq!(refused(&CODE, 0, &[], (2, 3)), 21);
    assert_eq!(refused(&CODE, 0, &[], (0, 0)), 21);
    assert_eq!(refused(&CODE, 0, &[0, 0], (3, 2)), 19);
}

#[test]
fn two_points() {
    let (mut work, mut out) = ([MARK; 4], [MARK; 5]);
    let arguments = words([3.0, 0.5, -2.0, 4.0]);
    assert_eq!(run_points(&CODE, 2, &arguments, &mut work, &mut out), Ok(4));
    assert_eq!(out[..4], words([1.5, 3.0, -8.0, -2.0]));
    assert_eq!(out[4], MARK);
    assert_eq!(work[..3], words([-2.0, 4.0, -8.0]));
    assert_eq!(work[3], MARK);
}

#[test]
fn as_one_by_one() {
    let count = MOST_POINTS as usize;
    let arguments: Vec<u64> = (0..2 * count).map(|k| (k as f64 / 8.0).to_bits()).collect();
    let (mut work, mut out) = ([MARK; 5], vec![MARK; 2 * count + 1]);
    let (mut own_work, mut own_out) = (work, out.clone());
    let got = run_points(&CODE, MOST_POINTS, &arguments, &mut work, &mut out);
    assert_eq!(got, Ok(2 * count));
    for (arguments, out) in arguments.chunks_exact(2).zip(own_out.chunks_exact_mut(2)) {
        assert_eq!(run(&CODE, arguments, &mut own_work, out), Ok(2));
    }
    assert_eq!(work, own_work);
    assert_eq!(out, own_out);
}

#[test]
fn no_arguments() {
    let (mut work, mut out) = ([MARK; 1], [MARK; 4]);
    assert_eq!(run_points(&ONE, 3, &[], &mut work, &mut out), Ok(3));
    assert_eq!(out[..3], words([1.0; 3]));
    assert_eq!(out[3], MARK);
    assert_eq!(refused(&ONE, 3, &[0], (1, 3)), 19);
    assert_eq!(refused(&ONE, 1025, &[], (1, 1025)), 22);
}

/// From all faults at once to one alone.
#[test]
fn order_of_refusals() {
    let cut = &CODE[..21];
    let infinite = [0, 0, 0, f64::INFINITY.to_bits()];
    assert_eq!(refused(cut, 1025, &infinite, (2, 3)), 18);
    assert_eq!(refused(cut, 2, &[0; 4], (3, 4)), 18);
    assert_eq!(refused(&CODE, 1025, &infinite, (2, 3)), 22);
    assert_eq!(refused(&CODE, 1025, &[0; 2050], (3, 2050)), 22);
    assert_eq!(refused(&CODE, 1, &infinite, (2, 1)), 19);
    assert_eq!(refused(&CODE, 3, &[0; 4], (3, 6)), 19);
    assert_eq!(refused(&CODE, 2, &infinite, (2, 3)), 20);
    assert_eq!(refused(&CODE, 2, &infinite, (3, 4)), 20);
    assert_eq!(refused(&CODE, 2, &[0; 4], (2, 4)), 21);
    assert_eq!(refused(&CODE, 2, &[0; 4], (3, 3)), 21);
}

/// The products of these counts would wrap to the lengths that are lent.
#[test]
fn huge_counts() {
    for count in [1025, 1 << 32, 1 << 60, 1 << 63, u64::MAX] {
        for arguments in 0..6 {
            assert_eq!(refused(&CODE, count, &vec![0; arguments], (3, 6)), 22);
        }
    }
    for point in 0..3 {
        let arguments = vec![0; 2 * point as usize];
        for count in [(1 << 63) + point, (1 << 31) + point, (1 << 32) + point] {
            assert_eq!(
                refused(&CODE, count, &arguments, (3, 2 * point as usize)),
                22
            );
        }
    }
}

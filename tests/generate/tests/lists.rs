//! Lists and values of the independent program, worked out by hand.

use generate::graph::{Function, Graph, Reference, input};
use generate::kinds::*;
use independent::{compile, evaluate, run};

const S: u8 = 1;
const V: u8 = 2;
const M: u8 = 3;

fn node(id: u16) -> Reference {
    Reference { node: id, port: 0 }
}

#[test]
fn always_the_first_ready_node() {
    let mut f = Function::new(1, &[S]);
    f.node(ABS, S, &[node(2)]);
    f.node(ADDITION, S, &[node(3), input(0)]);
    f.constant(&[0.0]);
    f.node(DECOMPOSEVECTOR, 0, &[node(5)]);
    f.node(VECTORFROMSCALAR, 0, &[node(1)]);
    f.constant(&[0.0]);
    f.output(S, node(4).port(1));
    let table = Graph { functions: vec![f] }.to_bytes();
    let mut code = b"IFR\x01\x00\x01\x01\x00\x06\x00\x0B\x00".to_vec();
    code.extend([5, 0, 0, 0, 0, 0, 0, 0, 0, 0]); // word 1
    code.extend([1, 1, 1, 0, 0, 0]); // word 2
    code.extend([20, 1, 2, 0]); // word 3
    code.extend([9, 0, 3, 0]); // words 4 to 6
    code.extend([10, 0, 4, 0]); // words 7 to 9
    code.extend([5, 0, 0, 0, 0, 0, 0, 0, 0, 0]); // word 10
    code.extend([8, 0]);
    assert_eq!(compile(&table, 1, usize::MAX), Ok(code));
}

#[test]
fn a_call_is_opened_where_it_stands() {
    let mut square = Function::new(9, &[S, V]);
    square.node(MULTIPLICATION, S, &[input(0), input(0)]);
    square.output(V, input(1));
    square.output(S, node(1));
    let mut f = Function::new(1, &[V, S]);
    f.call(9, &[node(2).port(1), input(0)]);
    f.call(9, &[input(1), input(0)]);
    f.output(S, node(1).port(1));
    f.output(V, node(1));
    let functions = vec![square, f];
    let table = Graph { functions }.to_bytes();
    let mut code = b"IFR\x01\x00\x04\x04\x00\x02\x00\x06\x00".to_vec();
    code.extend([3, 1, 3, 0, 3, 0]); // word 4, the second call
    code.extend([3, 1, 4, 0, 4, 0]); // word 5, the first call
    code.extend([5, 0, 0, 0, 1, 0, 2, 0]);
    assert_eq!(compile(&table, 1, usize::MAX), Ok(code));
}

/// A kind on values that may be infinite or NaN, both as a run and as a meaning.
fn apply(kind: u8, ty: u8, operands: &[&[f64]]) -> Vec<u64> {
    let ports = independent::ports(kind, ty).expect("a legal pair");
    let mut f = Function::new(1, &[]);
    let mut references = vec![];
    for (components, &ty) in operands.iter().zip(ports.operands) {
        // A quotient that is the value: x / 1, or its sign over 0, or 0 / 0.
        let over = |x: f64| match x {
            _ if x.is_nan() => (0.0, 0.0),
            _ if x.is_infinite() => (x.signum(), 0.0),
            _ => (x, 1.0),
        };
        let numerators: Vec<f64> = components.iter().map(|&x| over(x).0).collect();
        let denominators: Vec<f64> = components.iter().map(|&x| over(x).1).collect();
        let (a, b) = (f.constant(&numerators), f.constant(&denominators));
        references.push(f.node(DIVISION, ty, &[a, b]));
    }
    let result = f.node(kind, ty, &references);
    for (port, &ty) in ports.results.iter().enumerate() {
        f.output(ty, result.port(port as u8));
    }
    let table = Graph { functions: vec![f] }.to_bytes();
    let code = compile(&table, 1, usize::MAX).expect("within the limits");
    let (mut work, mut out) = (vec![0; 8192], vec![0; 128]);
    let count = run(&code, &[], &mut work, &mut out).expect("a run");
    out.truncate(count);
    assert_eq!(out, evaluate(&table, 1, &[]));
    out
}

fn same(got: Vec<u64>, wanted: &[f64]) {
    let word = |x: &f64| {
        if x.is_nan() {
            0x7FF8_0000_0000_0000
        } else {
            x.to_bits()
        }
    };
    assert_eq!(got, wanted.iter().map(word).collect::<Vec<u64>>());
}

const INF: f64 = f64::INFINITY;
const NAN: f64 = f64::NAN;

#[test]
fn scalars() {
    for (kind, operands, wanted) in [
        (ADDITION, &[INF, -INF][..], NAN),
        (ADDITION, &[-0.0, 0.0], 0.0),
        (ADDITION, &[-0.0, -0.0], -0.0),
        (SUBTRACTION, &[1.0, 1.0], 0.0),
        (MULTIPLICATION, &[-0.0, 3.0], -0.0),
        (MULTIPLICATION, &[INF, 0.0], NAN),
        (DIVISION, &[1.0, -0.0], -INF),
        (MIN, &[NAN, 2.0], 2.0),
        (MIN, &[2.0, NAN], NAN),
        (MIN, &[-0.0, 0.0], 0.0),
        (MIN, &[0.0, -0.0], -0.0),
        (MIN, &[1.0, 2.0], 1.0),
        (MAX, &[NAN, 2.0], 2.0),
        (MAX, &[2.0, NAN], NAN),
        (MAX, &[0.0, -0.0], -0.0),
        (MAX, &[1.0, 2.0], 2.0),
        (ABS, &[-0.0], 0.0),
        (ABS, &[-INF], INF),
        (ABS, &[NAN], NAN),
        (FMOD, &[7.0, -3.0], 1.0),
        (FMOD, &[-7.0, 3.0], -1.0),
        (FMOD, &[-6.0, 3.0], -0.0),
        (FMOD, &[6.0, 3.0], 0.0),
        (FMOD, &[INF, 3.0], NAN),
        (FMOD, &[3.0, 0.0], NAN),
        (FMOD, &[3.0, -INF], 3.0),
        (FMOD, &[-0.0, INF], -0.0),
        (FMOD, &[1e308, 5e-324], 0.0),
        (FMOD, &[NAN, 1.0], NAN),
        (SELECT, &[1.0, 2.0, 3.0, 4.0], 3.0),
        (SELECT, &[2.0, 2.0, 3.0, 4.0], 4.0),
        (SELECT, &[NAN, 2.0, 3.0, 4.0], 4.0),
        (SELECT, &[-0.0, 0.0, 3.0, -0.0], -0.0),
        (CLAMP, &[0.0, 1.0, 2.0], 1.0),
        (CLAMP, &[3.0, 1.0, 2.0], 2.0),
        (CLAMP, &[1.5, 1.0, 2.0], 1.5),
        (CLAMP, &[1.5, 2.0, 1.0], 2.0),
        (CLAMP, &[3.0, 2.0, 1.0], 1.0),
        (CLAMP, &[NAN, 1.0, 2.0], NAN),
        (CLAMP, &[5.0, NAN, NAN], 5.0),
        (CLAMP, &[-0.0, 0.0, 1.0], -0.0),
    ] {
        let operands: Vec<&[f64]> = operands.chunks(1).collect();
        same(apply(kind, S, &operands), &[wanted]);
    }
}

#[test]
fn vectors() {
    let (a, b) = ([1.0, 2.0, 3.0], [4.0, 5.0, 6.0]);
    same(apply(CROSS, 0, &[&a, &b]), &[-3.0, 6.0, -3.0]);
    same(apply(DOT, 0, &[&a, &b]), &[32.0]);
    // (1e16 + 1) + 1 is not 1e16 + (1 + 1).
    same(apply(DOT, 0, &[&[1e16, 1.0, 1.0], &[1.0; 3]]), &[1e16]);
    // A fused step would leave the product's error.
    let x = 1.0 + f64::EPSILON;
    same(apply(DOT, 0, &[&[x, -1.0, 0.0], &[x, x * x, 0.0]]), &[0.0]);
    same(apply(VECTORFROMSCALAR, 0, &[&[-0.0]]), &[-0.0; 3]);
    same(
        apply(COMPOSEVECTOR, 0, &[&[1.0], &[NAN], &[-INF]]),
        &[1.0, NAN, -INF],
    );
    same(
        apply(DECOMPOSEVECTOR, 0, &[&[1.0, NAN, -INF]]),
        &[1.0, NAN, -INF],
    );
    same(apply(MULTIPLICATION, V, &[&a, &b]), &[4.0, 10.0, 18.0]);
}

#[test]
fn matrices() {
    let m: Vec<f64> = (0..16).map(f64::from).collect();
    let (z, o) = (0.0, 1.0);
    let columns: [&[f64]; 4] = [
        &[1.0, 2.0, 3.0],
        &[4.0, 5.0, 6.0],
        &[7.0, 8.0, 9.0],
        &[10.0, 11.0, 12.0],
    ];
    same(
        apply(MATRIXFROMCOLUMNS, 0, &columns),
        &[
            1.0, 4.0, 7.0, 10.0, 2.0, 5.0, 8.0, 11.0, 3.0, 6.0, 9.0, 12.0, z, z, z, o,
        ],
    );
    same(
        apply(MATRIXFROMROWS, 0, &columns),
        &[
            1.0, 2.0, 3.0, z, 4.0, 5.0, 6.0, z, 7.0, 8.0, 9.0, z, 10.0, 11.0, 12.0, o,
        ],
    );
    let single: Vec<&[f64]> = m.chunks(1).collect();
    same(apply(COMPOSEMATRIX, 0, &single), &m);
    same(
        apply(TRANSPOSE, 0, &[&m]),
        &[
            0.0, 4.0, 8.0, 12.0, 1.0, 5.0, 9.0, 13.0, 2.0, 6.0, 10.0, 14.0, 3.0, 7.0, 11.0, 15.0,
        ],
    );
    same(
        apply(MATVECMULTIPLICATION, 0, &[&m, &[1.0, 10.0, 100.0]]),
        &[213.0, 661.0, 1109.0],
    );
    // ((1 · 1e16 + 1 · 1) + 1 · 1) + 1 rounds at each step.
    same(
        apply(MATVECMULTIPLICATION, 0, &[&[1.0; 16], &[1e16, 1.0, 1.0]]),
        &[1e16; 3],
    );
    let squares: Vec<f64> = m.iter().map(|x| x * x).collect();
    same(apply(MULTIPLICATION, M, &[&m, &m]), &squares);
}

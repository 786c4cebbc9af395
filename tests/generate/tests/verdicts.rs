//! Verdicts of the independent program on small tables, with places counted by hand.

use generate::graph::{Function, Graph, Reference, input, mend_length};
use generate::kinds::*;
use independent::{Refusal, check};

const S: u8 = 1;
const V: u8 = 2;

fn refused(number: u32, place: usize) -> Result<usize, Refusal> {
    Err(Refusal { number, place })
}

fn node(id: u16) -> Reference {
    Reference { node: id, port: 0 }
}

fn table(functions: &[&Function]) -> Vec<u8> {
    let functions = functions.iter().map(|&f| f.clone()).collect();
    Graph { functions }.to_bytes()
}

/// The table with its first bytes only, and the length field mended.
fn cut(table: &[u8], length: usize) -> Vec<u8> {
    let mut table = table[..length].to_vec();
    mend_length(&mut table);
    table
}

/// One scalar input, one scalar output: the head at 8, the input at 14, the output at 15,
/// the first node at 19.
fn function(id: u16) -> Function {
    let mut f = Function::new(id, &[S]);
    f.output(S, input(0));
    f
}

#[test]
fn header() {
    let good = table(&[&function(1)]);
    assert_eq!(check(&good), Ok(1));
    assert_eq!(check(&good[..7]), refused(1, 0));
    assert_eq!(check(&[0; 8]), refused(2, 0));
    assert_eq!(check(&good[..8]), refused(4, 6));
    assert_eq!(check(&cut(&good, 8)), refused(5, 8));
    for count in [0, 17, 255] {
        let mut bad = good.clone();
        bad[5] = count;
        assert_eq!(check(&bad), refused(6, 5));
    }
    let mut more = good.clone();
    more[5] = 2;
    assert_eq!(check(&more), refused(5, 19));
    let mut longer = good.clone();
    longer.push(0);
    mend_length(&mut longer);
    assert_eq!(check(&longer), refused(8, 19));
}

#[test]
fn records() {
    let mut f = function(1);
    f.constant(&[1.0, 2.0, f64::INFINITY]);
    let infinite = table(&[&f]);
    assert_eq!(check(&infinite), refused(7, 23));
    // What does not fit is refused before it is judged.
    assert_eq!(check(&cut(&infinite, 46)), refused(5, 23));
    assert_eq!(check(&cut(&infinite, 22)), refused(5, 19));
    assert_eq!(check(&cut(&infinite, 18)), refused(5, 15));
    assert_eq!(check(&cut(&infinite, 14)), refused(5, 14));
    assert_eq!(check(&cut(&infinite, 13)), refused(5, 8));
    // A 7 in the first function comes before a 5 in the second.
    let two = table(&[&f, &function(2)]);
    assert_eq!(check(&cut(&two, two.len() - 1)), refused(7, 23));

    let mut bad = table(&[&function(1)]);
    bad[14] = 4;
    assert_eq!(check(&bad), refused(6, 14));
    bad[14] = 1;
    bad[15] = 0;
    assert_eq!(check(&bad), refused(6, 15));
    bad[15] = 1;
    bad[11] = 0;
    assert_eq!(check(&bad), refused(6, 8));

    for (id, kind, ty) in [
        (0, 1, 1),
        (1, 0, 0),
        (1, 25, 0),
        (1, 1, 0),
        (1, 1, 4),
        (1, 5, 1),
        (1, 24, 1),
    ] {
        let mut f = function(1);
        f.node(kind, ty, &[input(0), input(0)]);
        f.nodes[0].id = id;
        assert_eq!(check(&table(&[&f])), refused(6, 19));
    }
}

#[test]
fn calls() {
    let mut caller = function(2);
    caller.call(1, &[input(0)]);
    let good = table(&[&function(1), &caller]);
    assert_eq!(check(&good), Ok(2));
    // The second function's head stands at 19, its node at 30.
    assert_eq!(check(&cut(&good, 36)), refused(5, 34));
    assert_eq!(check(&cut(&good, 39)), refused(5, 37));
    let mut many = function(2);
    many.call(1, &[input(0); 9]);
    assert_eq!(check(&table(&[&function(1), &many])), refused(6, 34));
    // A wrong count, itself, a later function, none, and 0.
    let mut two = function(2);
    two.call(1, &[input(0); 2]);
    assert_eq!(check(&table(&[&function(1), &two])), refused(10, 30));
    assert_eq!(check(&table(&[&caller, &function(1)])), refused(10, 19));
    for callee in [0, 2, 3] {
        let mut f = function(2);
        f.call(callee, &[input(0)]);
        assert_eq!(check(&table(&[&function(1), &f])), refused(10, 30));
    }
    // Calls are judged before references.
    let mut f = function(2);
    f.outputs[0].1 = node(77);
    f.call(9, &[]);
    assert_eq!(check(&table(&[&function(1), &f])), refused(10, 30));
}

#[test]
fn ids() {
    assert_eq!(check(&table(&[&function(5), &function(5)])), refused(9, 19));
    let mut f = function(1);
    f.constant(&[1.0]);
    f.constant(&[2.0]);
    f.constant(&[3.0]);
    f.nodes[2].id = 1;
    assert_eq!(check(&table(&[&f])), refused(9, 43));
    // Ids of nodes in different functions may agree, and that of a function with a node's.
    f.nodes[2].id = 3;
    let mut g = f.clone();
    g.id = 3;
    assert_eq!(check(&table(&[&f, &g])), Ok(2));
    // The first function's faults come before the second's.
    f.node(ABS, S, &[node(4)]);
    assert_eq!(check(&table(&[&f, &f])), refused(13, 55));
}

#[test]
fn references() {
    let mut f = function(1);
    f.node(ADDITION, S, &[input(0), input(0)]);
    let with = |output: Reference, a: Reference, b: Reference| {
        let mut f = f.clone();
        f.outputs[0].1 = output;
        f.nodes[0].references = vec![a, b];
        check(&table(&[&f]))
    };
    let (good, bad) = (input(0), input(1));
    assert_eq!(with(good, good, good), Ok(1));
    // Outputs' references first, then the nodes'.
    assert_eq!(with(bad, bad, bad), refused(11, 16));
    assert_eq!(with(good, bad, bad), refused(11, 23));
    assert_eq!(with(good, good, bad), refused(11, 26));
    assert_eq!(with(node(1).port(1), good, good), refused(11, 16));
    assert_eq!(with(node(2), good, good), refused(11, 16));
    // A port is found before its type is judged, and each reference alone.
    let mut f = Function::new(1, &[V]);
    f.output(S, input(0));
    f.node(DECOMPOSEVECTOR, 0, &[input(3)]);
    assert_eq!(check(&table(&[&f])), refused(12, 16));
    f.outputs[0].1 = node(1).port(2);
    assert_eq!(check(&table(&[&f])), refused(11, 23));
    f.nodes[0].references[0] = input(0);
    assert_eq!(check(&table(&[&f])), Ok(1));
    f.outputs[0].1 = node(1).port(3);
    assert_eq!(check(&table(&[&f])), refused(11, 16));
}

#[test]
fn loops() {
    // Nodes of 10 bytes from 19: 1 leads to the loop of 3 and 2.
    let mut f = function(1);
    f.node(ADDITION, S, &[node(2), input(0)]);
    f.node(ADDITION, S, &[node(3), node(3)]);
    f.node(ADDITION, S, &[input(0), node(2)]);
    assert_eq!(check(&table(&[&f])), refused(13, 29));
    // A node read twice, and a diamond, are no loop.
    let mut f = function(1);
    f.node(ADDITION, S, &[node(2), node(3)]);
    f.node(ADDITION, S, &[node(4), node(4)]);
    f.node(ADDITION, S, &[node(4), node(4)]);
    f.node(ABS, S, &[input(0)]);
    assert_eq!(check(&table(&[&f])), Ok(1));
    // Through a call, whatever the callee does with its argument.
    let mut f = function(2);
    f.node(ABS, S, &[node(2)]);
    f.call(1, &[node(1)]);
    let mut constant = function(1);
    let one = constant.constant(&[1.0]);
    constant.outputs[0].1 = one;
    assert_eq!(check(&table(&[&constant, &f])), refused(13, 42));
}

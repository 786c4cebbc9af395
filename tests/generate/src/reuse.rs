//! Graphs and lists for version 2, whose words are used again: values of every length of life, and counts
//! around the limit of words.

use crate::codes::{Code, result_words};
use crate::graph::{Function, Graph, Reference, input};
use crate::kinds::*;

const S: u8 = 1;
const V: u8 = 2;
const M: u8 = 3;

const HALVES: [f64; 16] = [0.5; 16];

fn alone(function: Function) -> Graph {
    Graph {
        functions: vec![function],
    }
}

/// An input that nothing reads stands before, between and behind those that are read; results that nothing
/// reads are free after their instruction.
pub fn unread() -> Graph {
    let mut f = Function::new(1, &[V, S, M, S, V]);
    f.constant(&[1.0, 2.0, 3.0]);
    let a = f.node(ADDITION, S, &[input(1), input(3)]);
    f.constant(&HALVES);
    f.node(ABS, S, &[a]);
    let b = f.node(MULTIPLICATION, S, &[a, input(1)]);
    f.node(VECTORFROMSCALAR, 0, &[b]);
    f.output(S, b);
    alone(f)
}

/// The inputs are the outputs, some twice, beside nodes whose results die.
pub fn inputs_as_outputs() -> Graph {
    let mut f = Function::new(1, &[S, V, S, M]);
    let a = f.node(ADDITION, S, &[input(0), input(2)]);
    let b = f.node(ABS, S, &[a]);
    let c = f.node(VECTORFROMSCALAR, 0, &[b]);
    f.node(CROSS, 0, &[c, input(1)]);
    for output in [(M, 3), (S, 0), (V, 1), (M, 3)] {
        f.output(output.0, input(output.1));
    }
    alone(f)
}

/// Values that are read by the next instruction and by a later one too.
pub fn read_twice() -> Graph {
    let mut f = Function::new(1, &[S, S]);
    let a = f.node(ADDITION, S, &[input(0), input(1)]);
    let b = f.node(MULTIPLICATION, S, &[a, a]);
    let c = f.node(SUBTRACTION, S, &[b, input(1)]);
    let d = f.node(MIN, S, &[c, b]);
    let e = f.node(MAX, S, &[d, a]);
    f.output(S, e);
    alone(f)
}

/// Gaps of one and two words that are too short for a vector and are taken by scalars later.
pub fn gaps() -> Graph {
    let mut f = Function::new(1, &[S, V, S, S, V]);
    let a = f.node(ADDITION, V, &[input(1), input(4)]);
    let b = f.node(ADDITION, S, &[input(2), input(3)]);
    let c = f.node(CROSS, 0, &[a, input(4)]);
    let d = f.node(MULTIPLICATION, S, &[b, input(0)]);
    let e = f.node(VECTORFROMSCALAR, 0, &[d]);
    let g = f.node(DOT, 0, &[e, c]);
    let h = f.node(ABS, S, &[g]);
    f.output(S, h);
    f.output(V, c);
    alone(f)
}

/// One word of a decomposed vector is an output and another is read: the value is held whole.
pub fn decomposed() -> Graph {
    let mut f = Function::new(1, &[V, V]);
    let parts = f.node(DECOMPOSEVECTOR, 0, &[input(0)]);
    let other = f.node(DECOMPOSEVECTOR, 0, &[input(1)]);
    let a = f.node(ADDITION, S, &[parts.port(2), other.port(1)]);
    let b = f.node(ABS, S, &[a]);
    let c = f.node(MULTIPLICATION, S, &[b, other.port(0)]);
    let d = f.node(COMPOSEVECTOR, 0, &[c, c, b]);
    let e = f.node(DOT, 0, &[d, d]);
    f.output(S, parts.port(1));
    f.output(S, e);
    alone(f)
}

/// A callee that gives back an input, reads another and leaves a third: its inputs are the caller's values.
pub fn passed() -> Graph {
    let mut callee = Function::new(7, &[M, S, V]);
    let a = callee.node(ABS, S, &[input(1)]);
    callee.output(M, input(0));
    callee.output(S, a);
    let mut f = Function::new(1, &[S, M]);
    let v = f.node(VECTORFROMSCALAR, 0, &[input(0)]);
    let first = f.call(7, &[input(1), input(0), v]);
    let second = f.call(7, &[first, first.port(1), v]);
    let t = f.node(TRANSPOSE, 0, &[second]);
    let x = f.node(MATVECMULTIPLICATION, 0, &[t, v]);
    f.output(V, x);
    f.output(S, second.port(1));
    Graph {
        functions: vec![callee, f],
    }
}

/// Eight outputs, two of them the same, from a tree of matrices.
pub fn many_outputs() -> Graph {
    let mut f = Function::new(1, &[M, V]);
    let a = f.node(TRANSPOSE, 0, &[input(0)]);
    let b = f.node(ADDITION, M, &[a, input(0)]);
    let c = f.node(MULTIPLICATION, M, &[b, a]);
    let d = f.node(ABS, M, &[c]);
    let e = f.node(MAX, M, &[d, b]);
    let v = f.node(MATVECMULTIPLICATION, 0, &[e, input(1)]);
    let w = f.node(MATVECMULTIPLICATION, 0, &[c, v]);
    let s = f.node(DOT, 0, &[v, w]);
    for (ty, reference) in [
        (M, e),
        (V, w),
        (S, s),
        (M, a),
        (M, a),
        (S, s),
        (M, input(0)),
        (V, w),
    ] {
        f.output(ty, reference);
    }
    alone(f)
}

/// Function 1 is a chain of `count` matrices on its input, function 2 calls it `calls` times in a chain:
/// version 1's sum is far over the limit, version 2's count stays small.
pub fn matrix_chains(count: usize, calls: usize) -> Graph {
    let mut chain = Function::new(1, &[M]);
    let mut last = input(0);
    for k in 0..count {
        last = match k % 3 {
            0 => chain.node(TRANSPOSE, 0, &[last]),
            1 => chain.node(ADDITION, M, &[last, input(0)]),
            _ => chain.node(ABS, M, &[last]),
        };
    }
    chain.output(M, last);
    let mut f = Function::new(2, &[M]);
    let mut last = input(0);
    for _ in 0..calls {
        last = f.call(1, &[last]);
    }
    f.output(M, last);
    Graph {
        functions: vec![chain, f],
    }
}

/// 255 constant matrices called `calls` times: with 16 the longest code that a table can have, and the words of
/// one matrix in version 2.
pub fn matrices_called(calls: usize) -> Graph {
    let mut constants = Function::new(1, &[]);
    let mut last = input(0);
    for _ in 0..255 {
        last = constants.constant(&HALVES);
    }
    constants.output(M, last);
    let mut f = Function::new(2, &[]);
    for _ in 0..calls {
        last = f.call(1, &[]);
    }
    f.output(M, last);
    Graph {
        functions: vec![constants, f],
    }
}

/// The matrices that `held` makes with each call.
const MADE: usize = 8;

/// Values that are all held at once: 63 calls make 8 matrices each, and `inputs` matrices and `scalars` scalars
/// are held beside them when the first sum is placed, so that version 2's word count is
/// 63 · 128 + 16 · inputs + scalars + 16. `busy` more calls have 251 operations each.
pub fn held(inputs: usize, scalars: usize, busy: usize) -> Graph {
    let mut make = Function::new(1, &[]);
    for k in 0..MADE {
        let matrix = make.constant(&[k as f64 + 0.5; 16]);
        make.output(M, matrix);
    }
    let mut sum = Function::new(2, &[M; MADE]);
    let mut last = input(0);
    for k in 1..MADE as u8 {
        last = sum.node(ADDITION, M, &[last, input(k)]);
    }
    sum.output(M, last);
    let mut constants = Function::new(3, &[]);
    for _ in 0..250 {
        last = constants.constant(&[1.0]);
    }
    constants.output(S, last);

    let mut f = Function::new(4, &vec![M; inputs]);
    let made: Vec<Reference> = (0..63).map(|_| f.call(1, &[])).collect();
    let scalars: Vec<Reference> = (0..scalars).map(|k| f.constant(&[k as f64])).collect();
    let ports =
        |call: Reference| -> Vec<Reference> { (0..MADE as u8).map(|k| call.port(k)).collect() };
    let sums: Vec<Reference> = made.iter().map(|&call| f.call(2, &ports(call))).collect();
    let mut all: Vec<Reference> = (0..inputs as u8).map(input).collect();
    all.resize(MADE, sums[0]);
    let matrix = f.call(2, &all);
    let mut scalar = f.constant(&[0.25]);
    for &other in &scalars {
        scalar = f.node(ADDITION, S, &[scalar, other]);
    }
    for _ in 0..busy {
        f.call(3, &[]);
    }
    f.output(M, matrix);
    f.output(S, scalar);
    Graph {
        functions: vec![make, sum, constants, f],
    }
}

/// Small graphs, one for each rule of holding.
pub fn small() -> Vec<Graph> {
    vec![
        unread(),
        inputs_as_outputs(),
        read_twice(),
        gaps(),
        decomposed(),
        passed(),
        many_outputs(),
    ]
}

/// Graphs whose last function has about 8,192 words in version 2, or 4,096 operations, or both.
pub fn near_limits() -> Vec<Graph> {
    let mut graphs = vec![];
    for (inputs, scalars) in [(7, 0), (7, 1), (6, 15), (6, 16), (6, 17), (0, 1), (8, 0)] {
        graphs.push(held(inputs, scalars, 0));
    }
    // 1,083 operations and 251 for each busy call: 4,095 with 12.
    for (scalars, busy) in [(0, 12), (1, 12), (0, 13), (1, 13)] {
        graphs.push(held(7, scalars, busy));
    }
    graphs
}

/// All graphs that are made for version 2.
pub fn graphs() -> Vec<Graph> {
    let mut graphs = small();
    graphs.extend([
        matrix_chains(255, 3),
        matrix_chains(255, 16),
        matrix_chains(8, 2),
    ]);
    graphs.extend([matrices_called(3), matrices_called(16)]);
    graphs.extend(near_limits());
    graphs
}

/// Well-formed lists of version 2 that no compiler writes.
pub fn lists() -> Vec<Code> {
    let mut lists = vec![];
    // Words 5 to 9 and 11 to 8,190 are never written.
    let mut holes = Code::version_2(3);
    holes.push_at(4, ABS, 1, &[0], &[]);
    holes.push_at(10, ADDITION, 1, &[4, 2], &[]);
    holes.push_at(8191, MULTIPLICATION, 1, &[10, 4], &[]);
    for address in [8191, 4, 10, 1] {
        holes.output(address);
    }
    lists.push(holes);
    // No argument, and a hole in front of everything.
    let mut behind = Code::version_2(0);
    behind.push_at(
        20,
        CONSTVEC,
        0,
        &[],
        &[1f64.to_bits(), 2f64.to_bits(), 3f64.to_bits()],
    );
    behind.push_at(40, VECTORFROMSCALAR, 0, &[21], &[]);
    behind.output(42);
    lists.push(behind);
    // Each result stands on its own operands, whole or shifted by a few words either way.
    for shift in [-16, -5, -3, -1, 0, 1, 2, 3, 4, 15, 16] {
        let at = |address: i32| (address + shift) as u16;
        let mut code = Code::version_2(64);
        code.push_at(at(16), TRANSPOSE, 0, &[16], &[]);
        code.push_at(at(16), ADDITION, 3, &[16, 32], &[]);
        code.push_at(at(20), SELECT, 3, &[16, 20, 24, 17], &[]);
        code.push_at(at(32), CLAMP, 3, &[33, 31, 32], &[]);
        code.push_at(at(16), MATRIXFROMCOLUMNS, 0, &[16, 17, 18, 19], &[]);
        code.push_at(at(20), MATRIXFROMROWS, 0, &[20, 23, 20, 26], &[]);
        let sixteen: Vec<u16> = (0..16).map(|k| 20 + (5 * k) % 16).collect();
        code.push_at(at(20), COMPOSEMATRIX, 0, &sixteen, &[]);
        code.push_at(at(16), MATVECMULTIPLICATION, 0, &[16, 20], &[]);
        code.push_at(at(20), CROSS, 0, &[20, 21], &[]);
        code.push_at(at(18), DECOMPOSEVECTOR, 0, &[18], &[]);
        code.push_at(at(19), COMPOSEVECTOR, 0, &[21, 20, 19], &[]);
        code.push_at(at(19), VECTORFROMSCALAR, 0, &[20], &[]);
        code.push_at(at(17), DOT, 0, &[17, 18], &[]);
        code.push_at(at(20), ABS, 3, &[20], &[]);
        code.push_at(at(20), FMOD, 3, &[20, 30], &[]);
        for address in 0..64 {
            code.output(address);
        }
        lists.push(code);
    }
    // The same word written often, and arguments written over.
    let mut over = Code::version_2(2);
    for k in 0..50 {
        over.push_at(k % 2, ADDITION, 1, &[0, 1], &[]);
    }
    over.output(0);
    over.output(1);
    lists.push(over);
    // 4,096 instructions on two words; nothing of the last is read.
    let mut many = Code::version_2(1);
    for k in 0..4096 {
        many.push_at(1 - k % 2, ABS, 1, &[k % 2], &[]);
    }
    many.output(0);
    lists.push(many);
    // An output that is an argument alone.
    let mut none = Code::version_2(3);
    none.output(2);
    lists.push(none);
    lists
}

/// One instruction of every kind at every type whose result lies on its operands, or by up to a matrix beside
/// them; all words are outputs.
pub fn overlapping() -> Vec<Code> {
    let mut lists = vec![];
    for (kind, ty) in all() {
        let operands = independent::ports(kind, ty).expect("a legal pair").operands;
        // Operands that lie across one another.
        let operands: Vec<u16> = (0..operands.len() as u16)
            .map(|k| 20 + 5 * k % 16)
            .collect();
        let constant = match kind {
            CONSTANT..=CONSTMAT => vec![1.5f64.to_bits(); result_words(kind, ty)],
            _ => vec![],
        };
        for result in 3..=37 {
            let mut code = Code::version_2(64);
            code.push_at(result, kind, ty, &operands, &constant);
            for word in 0..64 {
                code.output(word);
            }
            lists.push(code);
        }
    }
    lists
}

/// The longest code of version 2: 4,096 constant matrices and 128 outputs.
pub fn longest_list() -> Code {
    let mut code = Code::version_2(128);
    for k in 0..4096u16 {
        code.push_at(
            16 * (k % 512),
            CONSTMAT,
            0,
            &[],
            &[f64::from(k).to_bits(); 16],
        );
    }
    for k in 0..128 {
        code.output(64 * k);
    }
    code
}

/// Lists of version 2 that are not well formed, each by a single fault.
pub fn malformed_lists() -> Vec<Code> {
    let mut lists = vec![];
    // A good list, and what is changed in it.
    let mut good = Code::version_2(4);
    good.push_at(6, ADDITION, 2, &[0, 1], &[]);
    good.push_at(4, ABS, 1, &[8], &[]);
    good.push_at(12, DOT, 0, &[6, 1], &[]);
    good.output(12);
    good.output(4);
    let changes: [fn(&mut Code); 16] = [
        |code| code.words += 1,
        |code| code.words -= 1,
        |code| code.words = 0,
        |code| code.words = 8193,
        // Operands that begin, lie or end in a hole.
        |code| code.instructions[1].operands[0] = 5,
        |code| code.instructions[2].operands[0] = 3,
        |code| code.instructions[2].operands[1] = 7,
        |code| code.instructions[2].operands[1] = 4,
        // An operand in its own result, and one behind every word.
        |code| code.instructions[1].operands[0] = 4,
        |code| code.instructions[1].operands[0] = 0xFFFF,
        // Written only later.
        |code| code.instructions[0].operands[0] = 4,
        // Outputs in a hole, at the word count and far behind.
        |code| code.outputs[0] = 5,
        |code| code.outputs[0] = 13,
        |code| code.outputs[1] = 0xFFFF,
        // Results at the end of 16 bits, where an address would wrap.
        |code| code.instructions[0].result = 0xFFFE,
        |code| code.instructions[2].result = 0xFFFF,
    ];
    for change in changes {
        let mut code = good.clone();
        change(&mut code);
        lists.push(code);
    }
    // A result word at 8,192, with the word count that it asks for.
    let mut above = good.clone();
    above.push_at(8192, ABS, 1, &[0], &[]);
    lists.push(above);
    let mut above = good.clone();
    above.push_at(8190, ABS, 2, &[0], &[]);
    lists.push(above);
    // One instruction too many.
    let mut many = Code::version_2(1);
    for _ in 0..4097 {
        many.push_at(0, ABS, 1, &[0], &[]);
    }
    many.output(0);
    lists.push(many);
    lists
}

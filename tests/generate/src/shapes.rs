//! Graphs of a known shape: the settled examples, limits, chains, call trees.

use crate::graph::{Function, Graph, Reference, input};
use crate::kinds::*;
use crate::random::Random;

const S: u8 = 1;
const V: u8 = 2;
const M: u8 = 3;

const IDENTITY: [f64; 16] = [
    1.0, 0.0, 0.0, 0.0, //
    0.0, 1.0, 0.0, 0.0, //
    0.0, 0.0, 1.0, 0.0, //
    0.0, 0.0, 0.0, 1.0,
];

fn graph(functions: Vec<Function>) -> Graph {
    Graph { functions }
}

/// A: the product of two scalar inputs.
pub fn case_a() -> Graph {
    let mut f = Function::new(1, &[S, S]);
    let product = f.node(MULTIPLICATION, S, &[input(0), input(1)]);
    f.output(S, product);
    graph(vec![f])
}

/// K: one scalar input as the output, no node.
pub fn case_k() -> Graph {
    let mut f = Function::new(1, &[S]);
    f.output(S, input(0));
    graph(vec![f])
}

/// M: the quotient of two scalar inputs.
pub fn case_m() -> Graph {
    let mut f = Function::new(1, &[S, S]);
    let quotient = f.node(DIVISION, S, &[input(0), input(1)]);
    f.output(S, quotient);
    graph(vec![f])
}

/// Function 1 of `count` constants, and function 2 that calls it `calls` times
/// and has `more` scalar constants of its own.
fn constants_called(components: usize, count: usize, calls: usize, more: usize) -> Graph {
    let ty = match components {
        1 => S,
        3 => V,
        _ => M,
    };
    let mut constants = Function::new(1, &[]);
    for k in 0..count {
        constants.constant(&vec![k as f64 + 0.5; components]);
    }
    constants.output(
        ty,
        Reference {
            node: count as u16,
            port: 0,
        },
    );
    let mut caller = Function::new(2, &[]);
    for _ in 0..calls {
        caller.call(1, &[]);
    }
    for k in 0..more {
        caller.constant(&[k as f64]);
    }
    caller.output(
        ty,
        Reference {
            node: calls as u16,
            port: 0,
        },
    );
    graph(vec![constants, caller])
}

/// N: 255 scalar constants called 16 times, 4,096 operations; `more` constants in the caller.
pub fn case_n(more: usize) -> Graph {
    constants_called(1, 255, 16, more)
}

/// O: 256 constmat called twice, 8,192 words; `more` constants in the caller.
pub fn case_o(more: usize) -> Graph {
    constants_called(16, 256, 2, more)
}

/// 255 constant vectors called: more than 10 times is over the words, not the operations.
pub fn vectors_called(calls: usize) -> Graph {
    constants_called(3, 255, calls, 0)
}

/// Graphs whose last function has close to 4,096 operations or 8,192 words.
pub fn near_limits() -> Vec<Graph> {
    let mut graphs = vec![];
    for more in 0..4 {
        graphs.push(constants_called(1, 255, 16, more));
        graphs.push(constants_called(1, 254, 16, 14 + more));
        graphs.push(constants_called(16, 256, 2, more));
        graphs.push(constants_called(16, 255, 2, 30 + more));
        graphs.push(matrices_passed(250 + more));
    }
    graphs
}

/// Function 1 of `count` constant matrices beside its input, called twice with one of
/// 8 matrices: with 252, 8,192 words, the caller's arguments counted and the callee's not.
fn matrices_passed(count: usize) -> Graph {
    let mut callee = Function::new(1, &[M]);
    for _ in 0..count {
        callee.constant(&IDENTITY);
    }
    callee.output(M, input(0));
    let mut caller = Function::new(2, &[M; 8]);
    let first = caller.call(1, &[input(3)]);
    let second = caller.call(1, &[first]);
    caller.output(M, second);
    graph(vec![callee, caller])
}

/// `count` functions of 16, 256, 4,096 ... operations, each but the last one less: a sum of
/// 16, 32 or 64 bits would wrap to 0 at the 4th, 8th or 16th.
pub fn operation_powers(count: u16) -> Graph {
    let mut functions = vec![];
    for id in 1..=count {
        let mut f = Function::new(id, &[]);
        for _ in 0..15 + id / count {
            f.constant(&[1.0]);
        }
        for callee in 1..id {
            for _ in 0..15 {
                f.call(callee, &[]);
            }
        }
        f.output(S, Reference { node: 1, port: 0 });
        functions.push(f);
    }
    graph(functions)
}

/// 16 functions of 16, 256, 4,096 ... words.
pub fn word_powers() -> Graph {
    let mut functions = vec![];
    for id in 1..=16 {
        let mut f = Function::new(id, &[]);
        for _ in 0..16 {
            match id {
                1 => f.constant(&[1.0]),
                _ => f.call(id - 1, &[]),
            };
        }
        f.output(S, Reference { node: 16, port: 0 });
        functions.push(f);
    }
    graph(functions)
}

/// One function of `count` nodes, each reading the one before it.
pub fn chain(count: usize) -> Graph {
    let mut f = Function::new(1, &[S]);
    let mut last = input(0);
    for k in 0..count {
        let kind = [ADDITION, MULTIPLICATION, MIN, MAX][k % 4];
        last = f.node(kind, S, &[last, input(0)]);
    }
    f.output(S, last);
    graph(vec![f])
}

/// The chain with its nodes in reverse table order.
pub fn reversed_chain(count: usize) -> Graph {
    let mut graph = chain(count);
    graph.functions[0].nodes.reverse();
    graph
}

/// One function of `count` nodes that read only the inputs.
pub fn wide(count: usize) -> Graph {
    let mut f = Function::new(1, &[S, S, V, V]);
    for k in 0..count {
        match k % 3 {
            0 => f.node(ADDITION, S, &[input(0), input(1)]),
            1 => f.node(CROSS, 0, &[input(2), input(3)]),
            _ => f.node(SELECT, S, &[input(0), input(1), input(0), input(1)]),
        };
    }
    f.output(S, Reference { node: 1, port: 0 });
    graph(vec![f])
}

/// A chain of 256 nodes whose last two read each other.
pub fn loop_at_end() -> Graph {
    let mut graph = chain(256);
    let nodes = &mut graph.functions[0].nodes;
    nodes[254].references[1] = Reference { node: 256, port: 0 };
    graph
}

/// Every node reads all of the few before it: many references, no loop.
pub fn dense(count: usize) -> Graph {
    let mut f = Function::new(1, &[S]);
    let mut last = [input(0); 4];
    for _ in 0..count {
        let next = f.node(SELECT, S, &last);
        last.rotate_left(1);
        last[3] = next;
    }
    f.output(S, last[3]);
    graph(vec![f])
}

/// A typical table: 8 functions of 40 nodes, each but the first calling the one before it once.
pub fn typical() -> Graph {
    let functions = (1..=8).map(|id| body(id, 40, 1)).collect();
    graph(functions)
}

/// The largest table: 16 functions of 256 nodes of all kinds; the last has 4,096 operations.
pub fn largest() -> Graph {
    let functions = (1..=16).map(|id| body(id, 256, 1)).collect();
    graph(functions)
}

/// The most operations and the most words at once: 4,096 and 8,192. There are 4,081 instructions, as the 15 calls have none.
pub fn fullest() -> Graph {
    let inputs = [S, S, V];
    let chain = |f: &mut Function, ty: u8, from: Reference, with: Reference, count: usize| {
        (0..count).fold(from, |last, _| f.node(ADDITION, ty, &[last, with]))
    };
    let mut callee = Function::new(1, &inputs);
    let scalar = chain(&mut callee, S, input(0), input(1), 120);
    let vector = chain(&mut callee, V, input(2), input(2), 136);
    callee.output(S, scalar);
    callee.output(V, vector);
    let mut caller = Function::new(2, &inputs);
    let (mut scalar, mut vector) = (input(0), input(2));
    for _ in 0..15 {
        let call = caller.call(1, &[scalar, input(1), vector]);
        (scalar, vector) = (call.port(0), call.port(1));
    }
    scalar = chain(&mut caller, S, scalar, input(1), 228);
    vector = chain(&mut caller, V, vector, input(2), 13);
    caller.output(S, scalar);
    caller.output(V, vector);
    graph(vec![callee, caller])
}

/// 16 levels of calls, with few nodes each.
pub fn levels() -> Graph {
    let functions = (1..=16).map(|id| body(id, 24, 1)).collect();
    graph(functions)
}

/// 11 levels, each calling the one below twice: 3,070 operations.
pub fn tree() -> Graph {
    let mut functions = vec![];
    for id in 1..=11 {
        let mut f = Function::new(id, &[S]);
        let output = if id == 1 {
            f.node(ABS, S, &[input(0)])
        } else {
            let first = f.call(id - 1, &[input(0)]);
            f.call(id - 1, &[first])
        };
        f.output(S, output);
        functions.push(f);
    }
    graph(functions)
}

/// 16 functions of 256 calls each: sums of some 256 to the power of 16.
pub fn most_calls() -> Graph {
    let mut functions = vec![];
    for id in 1..=16 {
        let mut f = Function::new(id, &[S]);
        for _ in 0..256 {
            match id {
                1 => f.node(ABS, S, &[input(0)]),
                _ => f.call(id - 1, &[input(0)]),
            };
        }
        f.output(S, Reference { node: 256, port: 0 });
        functions.push(f);
    }
    graph(functions)
}

/// 16 functions of 256 nodes that call functions without nodes: operations over, words few.
pub fn empty_calls() -> Graph {
    let mut functions = vec![];
    for id in 1..=16 {
        let mut f = Function::new(id, &[S]);
        if id > 1 {
            for _ in 0..256 {
                f.call(id - 1, &[input(0)]);
            }
        }
        f.output(S, input(0));
        functions.push(f);
    }
    graph(functions)
}

/// 16 functions of 256 nodes in chains, in reverse table order, each calling the one before it.
pub fn chains() -> Graph {
    let mut functions = vec![];
    for id in 1..=16 {
        let mut f = Function::new(id, &[S]);
        let mut last = input(0);
        for k in 0..256 {
            last = match (k, id) {
                (0, 2..) => f.call(id - 1, &[last]),
                _ => f.node(ADDITION, S, &[last, input(0)]),
            };
        }
        f.output(S, last);
        f.nodes.reverse();
        functions.push(f);
    }
    graph(functions)
}

/// A function of `count` nodes of all kinds, the first `matrices` rounds with matrices too.
/// It calls the function of the id before it once, if there is one.
fn body(id: u16, count: usize, matrices: usize) -> Function {
    let mut f = Function::new(id, &[S, V]);
    let (s, v) = (input(0), input(1));
    let mut scalar = s;
    let mut vector = v;
    if id > 1 {
        scalar = f.call(id - 1, &[s, v]);
    }
    let mut round = 0;
    'all: loop {
        let half = f.constant(&[0.5]);
        let offset = f.constant(&[0.25, 0.5, 0.75]);
        let mut makers: Vec<(u8, u8)> = all();
        makers.retain(|&(kind, ty)| ty != M && !(CONSTANT..=CONSTMAT).contains(&kind));
        if round % 4 != 0 {
            makers.retain(|&(_, ty)| ty == S);
        }
        if round < matrices {
            let mut matrix = f.constant(&IDENTITY);
            matrix = f.node(ADDITION, M, &[matrix, matrix]);
            matrix = f.node(TRANSPOSE, 0, &[matrix]);
            vector = f.node(MATVECMULTIPLICATION, 0, &[matrix, vector]);
        }
        for (kind, ty) in makers {
            let operands = independent::ports(kind, ty).expect("a legal pair").operands;
            if (round >= matrices && [11, 12, 13].contains(&kind)) || kind == 16 || kind == 17 {
                continue;
            }
            if f.nodes.len() >= count {
                break 'all;
            }
            let mut k = 0;
            let references: Vec<Reference> = operands
                .iter()
                .map(|&ty| {
                    k += 1;
                    match (ty, k) {
                        (S, 1) => scalar,
                        (S, 3) => s,
                        (S, _) => half,
                        (_, 1) => vector,
                        (_, 3) => v,
                        _ => offset,
                    }
                })
                .collect();
            let node = f.node(kind, ty, &references);
            match independent::ports(kind, ty).expect("a legal pair").results[0] {
                S => scalar = node,
                V => vector = node,
                _ => {}
            }
        }
        round += 1;
        if f.nodes.len() + 2 > count {
            break;
        }
    }
    f.nodes.truncate(count);
    let last = Reference {
        node: f.nodes.len() as u16,
        port: 0,
    };
    let kept = |r: Reference| r.node <= last.node;
    f.output(S, if kept(scalar) { scalar } else { s });
    // Nodes in a mixed, fixed order.
    Random::new(u64::from(id)).shuffle(&mut f.nodes);
    f
}

/// An accepted table of 65,535 bytes.
pub fn longest() -> Graph {
    let mut first = Function::new(1, &[]);
    for _ in 0..256 {
        first.constant(&IDENTITY);
    }
    first.output(M, Reference { node: 256, port: 0 });
    let mut second = Function::new(2, &[S; 7]);
    for _ in 0..240 {
        second.constant(&IDENTITY);
    }
    second.constant(&[1.0]);
    second.constant(&[2.0]);
    second.output(S, Reference { node: 241, port: 0 });
    second.output(S, Reference { node: 242, port: 0 });
    graph(vec![first, second])
}

/// All graphs of a known shape that are no settled example.
pub fn all_shapes() -> Vec<Graph> {
    let mut shapes = vec![
        case_m(),
        vectors_called(10),
        vectors_called(11),
        chain(0),
        chain(256),
        reversed_chain(256),
        wide(256),
        dense(256),
        loop_at_end(),
        typical(),
        largest(),
        levels(),
        tree(),
        most_calls(),
        empty_calls(),
        chains(),
        longest(),
        crate::heat_exchanger::graph(),
    ];
    shapes.extend([4, 8, 16].map(operation_powers));
    shapes.push(word_powers());
    shapes.extend(near_limits());
    shapes
}

/// Every kind at a type, on quotients of inputs, so that infinities and NaN reach it.
///
/// Operand k is input 2k divided by input 2k + 1 (k modulo 4).
pub fn kind_on_quotients(kind: u8, ty: u8) -> Graph {
    let operands = independent::ports(kind, ty).expect("a legal pair");
    let mut inputs = vec![];
    for k in 0..4 {
        let ty = operands.operands.get(k).copied().unwrap_or(S);
        inputs.extend([ty, ty]);
    }
    let mut f = Function::new(1, &inputs);
    let mut quotients = vec![];
    for k in 0..4u8 {
        let ty = inputs[2 * k as usize];
        quotients.push(f.node(DIVISION, ty, &[input(2 * k), input(2 * k + 1)]));
    }
    let references: Vec<Reference> = (0..operands.operands.len())
        .map(|k| quotients[(k + k / 4) % 4])
        .collect();
    let result = match kind {
        CONSTANT => f.constant(&[-0.0]),
        CONSTVEC => f.constant(&[1.0, -0.0, f64::MAX]),
        CONSTMAT => f.constant(&IDENTITY),
        _ => f.node(kind, ty, &references),
    };
    for (port, &ty) in operands.results.iter().enumerate() {
        f.output(ty, result.port(port as u8));
    }
    // The result once more through a kind that reads it.
    for (port, &ty) in operands.results.iter().enumerate() {
        let sum = f.node(
            ADDITION,
            ty,
            &[result.port(port as u8), result.port(port as u8)],
        );
        f.output(ty, sum);
    }
    graph(vec![f])
}

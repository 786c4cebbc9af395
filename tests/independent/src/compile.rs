//! The sums of a function, and the list that is laid down for it: refusals 14 to 17, and 31.

use std::cmp::Reverse;
use std::collections::BinaryHeap;

use crate::judge::{Judged, Source, judge};
use crate::ports::{Ports, ports, type_words};
use crate::read::{Graph, Payload, read};
use crate::reuse::reused;
use crate::{MOST_OPERATIONS, MOST_WORDS, Refusal, refuse};

/// The counts of a function. They stop at the largest u64, far above every limit.
#[derive(Clone, Copy, Debug, Default, PartialEq, Eq)]
pub struct Sums {
    pub operations: u64,
    /// The words of all results, and of the arguments.
    pub words: u64,
    /// The bytes of the code.
    pub code: u64,
}

impl Sums {
    /// Whether the function may be compiled.
    pub fn within_limits(&self) -> bool {
        self.operations <= MOST_OPERATIONS && self.words <= MOST_WORDS
    }
}

fn words_of(types: &[u8]) -> u64 {
    types.iter().map(|&ty| type_words(ty) as u64).sum()
}

/// The sums of each function of an accepted table.
pub fn sums(graph: &Graph, judged: &Judged) -> Vec<Sums> {
    // What a call of each function adds: operations, result words, instruction bytes.
    let mut bodies: Vec<Sums> = Vec::with_capacity(graph.functions.len());
    let mut sums = Vec::with_capacity(graph.functions.len());
    for (index, function) in graph.functions.iter().enumerate() {
        let mut body = Sums::default();
        for (node, callee) in function.nodes.iter().zip(&judged.callees[index]) {
            let (operations, words, code) = match (&node.payload, callee) {
                (_, Some(callee)) => {
                    let callee = bodies[*callee];
                    (
                        callee.operations.saturating_add(1),
                        callee.words,
                        callee.code,
                    )
                }
                (Payload::Constant(bytes), _) => {
                    (1, bytes.len() as u64 / 8, 2 + bytes.len() as u64)
                }
                (Payload::Operands(ports), _) => (
                    1,
                    words_of(ports.results),
                    2 + 2 * ports.operands.len() as u64,
                ),
                _ => unreachable!("a call has a callee"),
            };
            body.operations = body.operations.saturating_add(operations);
            body.words = body.words.saturating_add(words);
            body.code = body.code.saturating_add(code);
        }
        sums.push(Sums {
            operations: body.operations,
            words: body.words.saturating_add(words_of(&function.inputs)),
            code: body
                .code
                .saturating_add(12 + 2 * words_of(&function.outputs)),
        });
        bodies.push(body);
    }
    sums
}

/// The sums of the function with this id: the table's refusals first, then 14.
fn sums_of(table: &[u8], id: u16) -> Result<Sums, Refusal> {
    let graph = read(table)?;
    let judged = judge(&graph)?;
    match graph.functions.iter().position(|f| f.id == id) {
        Some(index) => Ok(sums(&graph, &judged)[index]),
        None => refuse(14, 0),
    }
}

/// The operations of a function.
pub fn operations(table: &[u8], id: u16) -> Result<u64, Refusal> {
    Ok(sums_of(table, id)?.operations)
}

/// The word count of a function.
pub fn words(table: &[u8], id: u16) -> Result<u64, Refusal> {
    Ok(sums_of(table, id)?.words)
}

/// The code's length for a function.
pub fn code_length(table: &[u8], id: u16) -> Result<u64, Refusal> {
    Ok(sums_of(table, id)?.code)
}

/// Compiles the function with this id, given a code buffer of `available` bytes.
pub fn compile(table: &[u8], id: u16, available: usize) -> Result<Vec<u8>, Refusal> {
    let graph = read(table)?;
    let judged = judge(&graph)?;
    let Some(index) = graph.functions.iter().position(|f| f.id == id) else {
        return refuse(14, 0);
    };
    let sums = sums(&graph, &judged)[index];
    if sums.operations > MOST_OPERATIONS {
        return refuse(15, 0);
    }
    if sums.words > MOST_WORDS {
        return refuse(16, 0);
    }
    if sums.code > available as u64 {
        return refuse(17, 0);
    }

    let function = &graph.functions[index];
    let argument_words = words_of(&function.inputs);
    let output_words = words_of(&function.outputs);
    let mut emitter = Emitter {
        graph: &graph,
        judged: &judged,
        schedules: vec![None; graph.functions.len()],
        code: Vec::with_capacity(sums.code as usize),
        instructions: 0,
        next: argument_words as u16,
    };
    emitter.code.extend(b"IFR\x01\x00");
    emitter
        .code
        .extend([argument_words as u8, output_words as u8, 0]);
    emitter.code.extend([0; 2]); // the instruction count, put in at the end
    emitter.code.extend((sums.words as u16).to_le_bytes());

    let mut inputs = Vec::new();
    let mut address = 0;
    for &ty in &function.inputs {
        inputs.push(address);
        address += type_words(ty) as u16;
    }
    let outputs = emitter.function(index, &inputs);
    let mut code = emitter.code;
    code[8..10].copy_from_slice(&emitter.instructions.to_le_bytes());
    for (&address, &ty) in outputs.iter().zip(&function.outputs) {
        for k in 0..type_words(ty) as u16 {
            code.extend((address + k).to_le_bytes());
        }
    }
    debug_assert_eq!(code.len() as u64, sums.code);
    Ok(code)
}

/// Compiles the function with this id to a list of this version.
pub fn compile_version(
    table: &[u8],
    id: u16,
    version: u16,
    available: usize,
) -> Result<Vec<u8>, Refusal> {
    let graph = read(table)?;
    let judged = judge(&graph)?;
    let Some(index) = graph.functions.iter().position(|f| f.id == id) else {
        return refuse(14, 0);
    };
    match version {
        1 => return compile(table, id, available),
        2 => {}
        _ => return refuse(31, 0),
    }
    if sums(&graph, &judged)[index].operations > MOST_OPERATIONS {
        return refuse(15, 0);
    }
    let list = reused(&graph, &judged, index);
    if list.words as u64 > MOST_WORDS {
        return refuse(16, 0);
    }
    if list.code.len() > available {
        return refuse(17, 0);
    }
    Ok(list.code)
}

/// The order of a function's nodes: always the first in the table among those
/// not yet written whose references are all done.
pub(crate) fn schedule(graph: &Graph, judged: &Judged, index: usize) -> Vec<usize> {
    let nodes = &graph.functions[index].nodes;
    let sources = &judged.sources[index];
    let mut readers: Vec<Vec<usize>> = vec![Vec::new(); nodes.len()];
    let mut waiting = vec![0; nodes.len()];
    for (reader, node) in nodes.iter().enumerate() {
        for source in &sources[node.first..node.first + node.count] {
            if let Source::Port { node, .. } = *source {
                readers[node].push(reader);
                waiting[reader] += 1;
            }
        }
    }
    let mut ready: BinaryHeap<Reverse<usize>> = (0..nodes.len())
        .filter(|&n| waiting[n] == 0)
        .map(Reverse)
        .collect();
    let mut order = Vec::with_capacity(nodes.len());
    while let Some(Reverse(node)) = ready.pop() {
        order.push(node);
        for &reader in &readers[node] {
            waiting[reader] -= 1;
            if waiting[reader] == 0 {
                ready.push(Reverse(reader));
            }
        }
    }
    order
}

struct Emitter<'g> {
    graph: &'g Graph<'g>,
    judged: &'g Judged,
    /// The schedule of each function, made when it is first needed.
    schedules: Vec<Option<std::rc::Rc<Vec<usize>>>>,
    code: Vec<u8>,
    instructions: u16,
    /// The address of the next result.
    next: u16,
}

impl Emitter<'_> {
    /// Writes a function's nodes, given the addresses of its inputs; gives those of its outputs.
    fn function(&mut self, index: usize, inputs: &[u16]) -> Vec<u16> {
        let graph = self.graph;
        let judged = self.judged;
        let function = &graph.functions[index];
        let sources = &judged.sources[index];
        let order = match &self.schedules[index] {
            Some(order) => order.clone(),
            None => {
                let order = std::rc::Rc::new(schedule(graph, judged, index));
                self.schedules[index] = Some(order.clone());
                order
            }
        };
        // The address of each port of each node.
        let mut addresses = vec![[0u16; 8]; function.nodes.len()];
        let address_of = |addresses: &[[u16; 8]], source: Source| match source {
            Source::Input(n) => inputs[n],
            Source::Port { node, port } => addresses[node][port],
        };
        for &n in order.iter() {
            let node = &function.nodes[n];
            let operands = &sources[node.first..node.first + node.count];
            if let Some(callee) = judged.callees[index][n] {
                let arguments: Vec<u16> = operands
                    .iter()
                    .map(|&s| address_of(&addresses, s))
                    .collect();
                let outputs = self.function(callee, &arguments);
                addresses[n][..outputs.len()].copy_from_slice(&outputs);
                continue;
            }
            self.instructions += 1;
            self.code.extend([node.kind, node.ty]);
            for &operand in operands {
                self.code
                    .extend(address_of(&addresses, operand).to_le_bytes());
            }
            if let Payload::Constant(bytes) = node.payload {
                self.code.extend(bytes);
            }
            let Ports { results, .. } = ports(node.kind, node.ty).expect("a known kind");
            for (port, &ty) in results.iter().enumerate() {
                addresses[n][port] = self.next;
                self.next += type_words(ty) as u16;
            }
        }
        sources[..function.outputs.len()]
            .iter()
            .map(|&s| address_of(&addresses, s))
            .collect()
    }
}

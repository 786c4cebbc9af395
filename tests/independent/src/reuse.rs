//! The version 2 list of a function, whose words are used again once nothing reads them.

use crate::compile::schedule;
use crate::judge::{Judged, Source};
use crate::ports::{Ports, ports, type_words};
use crate::read::{Graph, Payload};

/// The end of a value that has an output word: it is held behind every instruction.
const TO_THE_END: usize = usize::MAX;

/// An input of the function, or the whole result of one instruction.
struct Value {
    words: usize,
    /// The number of the last instruction, from 1, at which its words are held; 0 for none.
    held_to: usize,
    address: usize,
}

/// Where a port begins: a value, and a word inside it.
#[derive(Clone, Copy, Default)]
struct Port {
    value: usize,
    word: usize,
}

struct Instruction<'g> {
    kind: u8,
    ty: u8,
    operands: Vec<Port>,
    constant: &'g [u8],
    /// The value that it writes.
    result: usize,
}

/// A function's instructions in their order, calls opened, before any value has an address.
struct Opened<'g> {
    graph: &'g Graph<'g>,
    judged: &'g Judged,
    values: Vec<Value>,
    instructions: Vec<Instruction<'g>>,
}

impl<'g> Opened<'g> {
    fn value(&mut self, words: usize) -> usize {
        self.values.push(Value {
            words,
            held_to: 0,
            address: 0,
        });
        self.values.len() - 1
    }

    /// Opens a function on its inputs; gives its outputs. A call has no value of its own: its ports are
    /// whatever its callee's outputs are.
    fn function(&mut self, index: usize, inputs: &[Port]) -> Vec<Port> {
        let (graph, judged) = (self.graph, self.judged);
        let function = &graph.functions[index];
        let sources = &judged.sources[index];
        let mut results: Vec<Vec<Port>> = vec![vec![]; function.nodes.len()];
        let port_of = |results: &[Vec<Port>], source: &Source| match *source {
            Source::Input(n) => inputs[n],
            Source::Port { node, port } => results[node][port],
        };
        for n in schedule(graph, judged, index) {
            let node = &function.nodes[n];
            let operands: Vec<Port> = sources[node.first..node.first + node.count]
                .iter()
                .map(|source| port_of(&results, source))
                .collect();
            if let Some(callee) = judged.callees[index][n] {
                results[n] = self.function(callee, &operands);
                continue;
            }
            let Ports { results: types, .. } = ports(node.kind, node.ty).expect("a known kind");
            let words: Vec<usize> = types.iter().map(|&ty| type_words(ty)).collect();
            let value = self.value(words.iter().sum());
            let mut word = 0;
            for length in words {
                results[n].push(Port { value, word });
                word += length;
            }
            let constant = match node.payload {
                Payload::Constant(bytes) => bytes,
                _ => &[],
            };
            self.instructions.push(Instruction {
                kind: node.kind,
                ty: node.ty,
                operands,
                constant,
                result: value,
            });
        }
        sources[..function.outputs.len()]
            .iter()
            .map(|source| port_of(&results, source))
            .collect()
    }

    /// How long each value is held: to its last reader, a result at least at its own instruction, and a
    /// value with an output word to the end.
    fn hold(&mut self, outputs: &[Port]) {
        for (number, instruction) in (1..).zip(&self.instructions) {
            for operand in &instruction.operands {
                self.values[operand.value].held_to = number;
            }
            self.values[instruction.result].held_to = number;
        }
        for output in outputs {
            self.values[output.value].held_to = TO_THE_END;
        }
    }

    /// Gives each value the lowest gap that is long enough; the word count.
    fn place(&mut self, inputs: usize) -> usize {
        // For each word ever held, the last instruction at which its latest holder is held.
        let mut held_to: Vec<usize> = vec![];
        for input in &mut self.values[..inputs] {
            input.address = held_to.len();
            held_to.extend(vec![input.held_to; input.words]);
        }
        for (number, instruction) in (1..).zip(&self.instructions) {
            let result = &mut self.values[instruction.result];
            let free = |word: usize| held_to.get(word).is_none_or(|&last| last < number);
            result.address = (0..)
                .find(|&address| (address..address + result.words).all(free))
                .expect("all words behind the last are free");
            let end = result.address + result.words;
            held_to.resize(held_to.len().max(end), 0);
            held_to[result.address..end].fill(result.held_to);
        }
        held_to.len()
    }

    fn address(&self, port: Port) -> usize {
        self.values[port.value].address + port.word
    }
}

/// A version 2 list, whatever its word count: one above the limit has no code.
pub struct Reused {
    pub words: usize,
    pub code: Vec<u8>,
}

/// The version 2 list of a function that is within the limit of operations.
pub fn reused(graph: &Graph, judged: &Judged, index: usize) -> Reused {
    let function = &graph.functions[index];
    let mut opened = Opened {
        graph,
        judged,
        values: vec![],
        instructions: vec![],
    };
    let mut inputs = vec![];
    for &ty in &function.inputs {
        let value = opened.value(type_words(ty));
        inputs.push(Port { value, word: 0 });
    }
    let outputs = opened.function(index, &inputs);
    opened.hold(&outputs);
    let words = opened.place(inputs.len());

    let argument_words: usize = function.inputs.iter().map(|&ty| type_words(ty)).sum();
    let output_words: usize = function.outputs.iter().map(|&ty| type_words(ty)).sum();
    let mut code = b"IFR\x02\x00".to_vec();
    code.extend([argument_words as u8, output_words as u8, 0]);
    code.extend((opened.instructions.len() as u16).to_le_bytes());
    code.extend((words as u16).to_le_bytes());
    for instruction in &opened.instructions {
        code.extend([instruction.kind, instruction.ty]);
        let result = opened.values[instruction.result].address;
        code.extend((result as u16).to_le_bytes());
        for &operand in &instruction.operands {
            code.extend((opened.address(operand) as u16).to_le_bytes());
        }
        code.extend(instruction.constant);
    }
    for (&output, &ty) in outputs.iter().zip(&function.outputs) {
        for word in 0..type_words(ty) {
            code.extend(((opened.address(output) + word) as u16).to_le_bytes());
        }
    }
    Reused { words, code }
}

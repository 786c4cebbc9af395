//! Random tables, and damage to them.

use std::collections::HashSet;

use crate::graph::{Function, Graph, Node, Payload, Reference, input, mend_length};
use crate::kinds::*;
use crate::random::Random;

const MOST_BYTES: usize = 65_535;

/// A random graph that the checker accepts.
pub fn random_graph(random: &mut Random) -> Graph {
    let functions = match random.below(100) {
        0..=54 => random.range(1, 2),
        55..=89 => random.range(3, 6),
        _ => random.range(7, 16),
    };
    let calls = *random.pick(&[0, 5, 5, 10, 10, 25, 60]);
    let mut graph = Graph::default();
    let mut ids = Ids::new(random);
    let mut room = MOST_BYTES - 8;
    for k in 0..functions {
        let id = ids.next(random);
        let function = random_function(random, &graph, id, calls, room / (functions - k));
        room -= size(&function);
        graph.functions.push(function);
    }
    debug_assert!(graph.to_bytes().len() <= MOST_BYTES);
    graph
}

fn size(function: &Function) -> usize {
    let nodes: usize = function.nodes.iter().map(Node::size).sum();
    6 + function.inputs.len() + 4 * function.outputs.len() + nodes
}

/// Ids that differ and are not 0: in a row, or anywhere.
struct Ids {
    used: HashSet<u16>,
    in_a_row: bool,
}

impl Ids {
    fn new(random: &mut Random) -> Ids {
        Ids {
            used: HashSet::new(),
            in_a_row: random.chance(30),
        }
    }

    fn next(&mut self, random: &mut Random) -> u16 {
        if self.in_a_row {
            self.used.insert(self.used.len() as u16 + 1);
            return self.used.len() as u16;
        }
        loop {
            let id = random.range(1, 65_535) as u16;
            if self.used.insert(id) {
                return id;
            }
        }
    }
}

/// The ports that a new node may read, by type.
#[derive(Default)]
pub(crate) struct Readable {
    ports: [Vec<Reference>; 3],
    /// Chance of reading one of the newest ports.
    newest: usize,
}

impl Readable {
    /// A function's inputs.
    pub(crate) fn inputs(random: &mut Random, types: &[u8]) -> Readable {
        let mut readable = Readable {
            newest: *random.pick(&[0, 40, 90]),
            ..Readable::default()
        };
        for (n, &ty) in (0..).zip(types) {
            readable.add(ty, input(n));
        }
        readable
    }

    pub(crate) fn add(&mut self, ty: u8, reference: Reference) {
        self.ports[ty as usize - 1].push(reference);
    }

    pub(crate) fn pick(&self, random: &mut Random, ty: u8) -> Option<Reference> {
        let ports = &self.ports[ty as usize - 1];
        if ports.is_empty() {
            return None;
        }
        let from = match random.chance(self.newest) {
            true => ports.len().saturating_sub(2),
            false => 0,
        };
        Some(*random.pick(&ports[from..]))
    }

    pub(crate) fn pick_all(&self, random: &mut Random, types: &[u8]) -> Option<Vec<Reference>> {
        types.iter().map(|&ty| self.pick(random, ty)).collect()
    }
}

fn random_function(
    random: &mut Random,
    earlier: &Graph,
    id: u16,
    calls: usize,
    room: usize,
) -> Function {
    let inputs = match random.below(10) {
        0 => 0,
        1..=7 => random.range(1, 3),
        _ => random.range(4, 8),
    };
    let outputs = match random.chance(80) {
        true => random.range(1, 2),
        false => random.range(3, 8),
    };
    let nodes = match random.below(100) {
        0..=7 => 0,
        8..=39 => random.range(1, 4),
        40..=79 => random.range(5, 20),
        80..=93 => random.range(21, 70),
        _ => *random.pick(&[100, 180, 255, 256]),
    };
    const TYPES: [&[u8]; 5] = [&[1, 2, 3], &[1, 1, 1, 2, 2, 3], &[1], &[1, 2], &[3]];
    let types = TYPES[random.below(TYPES.len())];
    let inputs: Vec<u8> = (0..inputs).map(|_| *random.pick(types)).collect();
    let mut function = Function::new(id, &inputs);
    let mut readable = Readable::inputs(random, &inputs);
    let pairs = all();
    let mut ids = Ids::new(random);
    let mut room = room - 6 - inputs.len() - 4 * outputs;
    for _ in 0..nodes {
        let id = ids.next(random);
        let node = random_node(random, earlier, &readable, id, calls, &pairs);
        if node.size() + 8 > room {
            break;
        }
        room -= node.size();
        for (port, &ty) in earlier.result_types(&node).iter().enumerate() {
            readable.add(
                ty,
                Reference {
                    node: id,
                    port: port as u8,
                },
            );
        }
        function.nodes.push(node);
    }
    if readable.ports.iter().all(Vec::is_empty) {
        let id = ids.next(random);
        let node = random_constant(random, id, CONSTANT);
        readable.add(
            1,
            Reference {
                node: node.id,
                port: 0,
            },
        );
        function.nodes.push(node);
    }
    while function.outputs.len() < outputs {
        let ty = random.range(1, 3) as u8;
        if let Some(reference) = readable.pick(random, ty) {
            function.outputs.push((ty, reference));
        }
    }
    match random.below(4) {
        0 => {}
        1 => function.nodes.reverse(),
        2 if !function.nodes.is_empty() => {
            for _ in 0..random.range(1, 3) {
                let (a, b) = (
                    random.below(function.nodes.len()),
                    random.below(function.nodes.len()),
                );
                function.nodes.swap(a, b);
            }
        }
        _ => random.shuffle(&mut function.nodes),
    }
    function
}

fn random_constant(random: &mut Random, id: u16, kind: u8) -> Node {
    let words = [1, 3, 16][kind as usize - 5];
    Node {
        id,
        kind,
        ty: 0,
        payload: Payload::Constant((0..words).map(|_| random.finite()).collect()),
        references: vec![],
    }
}

fn random_node(
    random: &mut Random,
    earlier: &Graph,
    readable: &Readable,
    id: u16,
    calls: usize,
    pairs: &[(u8, u8)],
) -> Node {
    if !earlier.functions.is_empty() && random.chance(calls) {
        let callee = random.pick(&earlier.functions);
        if let Some(references) = readable.pick_all(random, &callee.inputs) {
            return Node {
                id,
                kind: CALL,
                ty: 0,
                payload: Payload::Call(callee.id),
                references,
            };
        }
    }
    for _ in 0..8 {
        let (kind, ty) = *random.pick(pairs);
        if (CONSTANT..=CONSTMAT).contains(&kind) {
            return random_constant(random, id, kind);
        }
        let operands = independent::ports(kind, ty).expect("a legal pair").operands;
        if let Some(references) = readable.pick_all(random, operands) {
            return Node {
                id,
                kind,
                ty,
                payload: Payload::Operands,
                references,
            };
        }
    }
    let kind = random.range(5, 7) as u8;
    random_constant(random, id, kind)
}

/// Damages a graph and its table in one to three ways. Some damage leaves the table good.
pub fn damaged_table(random: &mut Random, graph: &Graph) -> Vec<u8> {
    if random.chance(45) {
        let mut table = graph.to_bytes();
        for _ in 0..random.range(1, 2) {
            damage_bytes(random, &mut table);
        }
        return table;
    }
    let mut graph = graph.clone();
    for _ in 0..*random.pick(&[1, 1, 1, 2, 3]) {
        damage_graph(random, &mut graph);
    }
    let mut table = graph.to_bytes();
    if random.chance(5) {
        damage_bytes(random, &mut table);
    }
    table
}

fn damage_bytes(random: &mut Random, table: &mut Vec<u8>) {
    if table.is_empty() {
        return;
    }
    let mended = random.chance(75);
    match random.below(16) {
        0..=4 => {
            let at = random.below(table.len());
            table[at] = random.word() as u8;
        }
        5 | 6 => {
            let at = random.below(table.len());
            table[at] ^= 1 << random.below(8);
        }
        7 => {
            let at = random.below(table.len());
            table[at] = table[at].wrapping_add(*random.pick(&[1, 255]));
        }
        // A byte of the header or of the first function's head and inputs.
        8 => {
            let at = random.below(table.len().min(20));
            table[at] = random.range(0, 17) as u8;
        }
        // Cut, anywhere or close to the end.
        9 | 10 => {
            let length = random.below(table.len());
            table.truncate(length);
            if mended {
                mend_length(table);
            }
        }
        11 => {
            let length = table.len() - random.range(1, table.len().min(16));
            table.truncate(length);
            if mended {
                mend_length(table);
            }
        }
        // Longer.
        12 => {
            let more = random.range(1, 12);
            for _ in 0..more {
                table.push(random.word() as u8);
            }
            if mended {
                mend_length(table);
            }
        }
        // The function count.
        13 => {
            if let Some(count) = table.get_mut(5) {
                *count = match random.chance(80) {
                    true => count.wrapping_add(*random.pick(&[1, 255])),
                    false => *random.pick(&[0, 16, 17, 255]),
                }
            }
        }
        // Bytes put in or taken out in the middle.
        14 => {
            let at = random.below(table.len());
            table.insert(at, random.word() as u8);
            if mended {
                mend_length(table);
            }
        }
        _ => {
            let at = random.below(table.len());
            table.remove(at);
            if mended {
                mend_length(table);
            }
        }
    }
}

fn damage_graph(random: &mut Random, graph: &mut Graph) {
    let f = random.below(graph.functions.len());
    let whole = graph.clone();
    let function = &mut graph.functions[f];
    let node_count = function.nodes.len();
    match random.below(16) {
        // A reference to any node and port.
        0 | 1 => {
            let node = match random.below(4) {
                0 => 0,
                1 => random.word() as u16,
                _ if node_count > 0 => random.pick(&function.nodes).id,
                _ => 0,
            };
            let port = *random.pick(&[0, 0, 0, 1, 2, 3, 7, 8, 255]);
            if let Some(reference) = any_reference(random, function) {
                *reference = Reference { node, port };
            }
        }
        // A reference to another port of the same type: often a loop.
        2..=5 if node_count > 0 => {
            for _ in 0..random.range(1, 3) {
                rewire_same_type(random, &whole, function);
            }
        }
        // An id doubled.
        6 if node_count > 1 => {
            let id = random.pick(&function.nodes).id;
            function.nodes[random.below(node_count)].id = id;
        }
        7 => {
            let id = random.pick(&whole.functions).id;
            function.id = id;
        }
        // Another callee: any function, none, or itself.
        8 | 9 => {
            let own = function.id;
            for node in &mut function.nodes {
                if let Payload::Call(callee) = &mut node.payload {
                    *callee = match random.below(4) {
                        0 => own,
                        1 => random.word() as u16,
                        _ => random.pick(&whole.functions).id,
                    };
                    if random.chance(50) {
                        break;
                    }
                }
            }
        }
        // Another argument count: one less, one more, or more than 8.
        10 => {
            let call = |node: &&mut Node| matches!(node.payload, Payload::Call(_));
            if let Some(node) = function.nodes.iter_mut().find(call) {
                let count = match random.below(4) {
                    0 => random.range(8, 12),
                    1 => node.references.len() + 1,
                    _ => node.references.len().saturating_sub(1),
                };
                node.references
                    .resize(count, Reference { node: 0, port: 0 });
            }
        }
        // A constant that is not finite.
        11 => {
            for node in &mut function.nodes {
                if let Payload::Constant(words) = &mut node.payload {
                    let at = random.below(words.len());
                    words[at] = random.not_finite();
                    if random.chance(70) {
                        break;
                    }
                }
            }
        }
        // Another kind or type byte over the same payload.
        12 if node_count > 0 => {
            let node = &mut function.nodes[random.below(node_count)];
            match random.chance(50) {
                true => node.kind = random.below(27) as u8,
                false => node.ty = random.below(5) as u8,
            }
        }
        // An input or an output of another type, or one more or less.
        13 => match random.below(4) {
            0 if !function.inputs.is_empty() => {
                let at = random.below(function.inputs.len());
                function.inputs[at] = random.below(5) as u8;
            }
            1 => drop(function.inputs.pop()),
            2 => {
                let at = random.below(function.outputs.len().max(1));
                if let Some(output) = function.outputs.get_mut(at) {
                    output.0 = random.below(5) as u8;
                }
            }
            _ => drop(function.outputs.pop()),
        },
        // Functions in another order.
        14 => random.shuffle(&mut graph.functions),
        // A node taken out, or put in twice.
        _ if node_count > 0 => {
            let at = random.below(node_count);
            match random.chance(60) {
                true => drop(function.nodes.remove(at)),
                false => function.nodes.push(function.nodes[at].clone()),
            }
        }
        _ => function.id = 0,
    }
}

fn any_reference<'f>(random: &mut Random, function: &'f mut Function) -> Option<&'f mut Reference> {
    let nodes: usize = function
        .nodes
        .iter()
        .map(|node| node.references.len())
        .sum();
    let count = function.outputs.len() + nodes;
    if count == 0 {
        return None;
    }
    let at = random.below(count);
    let outputs = function.outputs.iter_mut().map(|output| &mut output.1);
    let nodes = function
        .nodes
        .iter_mut()
        .flat_map(|node| &mut node.references);
    outputs.chain(nodes).nth(at)
}

fn rewire_same_type(random: &mut Random, graph: &Graph, function: &mut Function) {
    let read = random.pick(&function.nodes).clone();
    let types = graph.result_types(&read);
    if types.is_empty() {
        return;
    }
    let port = random.below(types.len());
    let start = random.below(function.nodes.len());
    for k in 0..function.nodes.len() {
        let at = (start + k) % function.nodes.len();
        let node = &function.nodes[at];
        let wanted: Vec<u8> = match node.payload {
            Payload::Call(callee) => {
                let callee = graph.functions.iter().find(|f| f.id == callee);
                callee.map_or(vec![], |f| f.inputs.clone())
            }
            _ => independent::ports(node.kind, node.ty).map_or(vec![], |p| p.operands.to_vec()),
        };
        let places: Vec<usize> = (0..node.references.len().min(wanted.len()))
            .filter(|&k| wanted[k] == types[port])
            .collect();
        if !places.is_empty() {
            let place = *random.pick(&places);
            function.nodes[at].references[place] = Reference {
                node: read.id,
                port: port as u8,
            };
            return;
        }
    }
}

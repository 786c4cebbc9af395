//! Judging a table that was read: refusals 9 to 13.

use std::collections::HashMap;

use crate::read::{Function, Graph, Payload, Reference};
use crate::{Refusal, refuse};

/// What a reference names, once found.
#[derive(Clone, Copy, Debug)]
pub enum Source {
    /// An input of the function.
    Input(usize),
    /// A port of the node with this index.
    Port { node: usize, port: usize },
}

/// What judging finds out and later stages use.
pub struct Judged {
    /// For each function: for each of its references, what it names.
    pub sources: Vec<Vec<Source>>,
    /// For each function: for each node, the index of the function it calls.
    pub callees: Vec<Vec<Option<usize>>>,
}

/// Judges function by function, or gives the first of refusals 9 to 13.
pub fn judge(graph: &Graph) -> Result<Judged, Refusal> {
    let mut function_of: HashMap<u16, usize> = HashMap::new();
    let mut judged = Judged {
        sources: Vec::with_capacity(graph.functions.len()),
        callees: Vec::with_capacity(graph.functions.len()),
    };
    for (index, function) in graph.functions.iter().enumerate() {
        if function_of.contains_key(&function.id) {
            return refuse(9, function.place);
        }
        let mut node_of = HashMap::with_capacity(function.nodes.len());
        for (index, node) in function.nodes.iter().enumerate() {
            if node_of.insert(node.id, index).is_some() {
                return refuse(9, node.place);
            }
        }
        let mut callees = vec![None; function.nodes.len()];
        for (node, callee) in function.nodes.iter().zip(&mut callees) {
            if let Payload::Call(id) = node.payload {
                match function_of.get(&id) {
                    Some(&f) if graph.functions[f].inputs.len() == node.count => *callee = Some(f),
                    _ => return refuse(10, node.place),
                }
            }
        }
        let sources = find_sources(graph, function, &node_of, &callees)?;
        if let Some(node) = first_on_loop(function, &sources) {
            return refuse(13, function.nodes[node].place);
        }
        function_of.insert(function.id, index);
        judged.sources.push(sources);
        judged.callees.push(callees);
    }
    Ok(judged)
}

/// The types of a node's results.
fn result_types<'g>(
    graph: &'g Graph,
    function: &'g Function,
    callees: &[Option<usize>],
    node: usize,
) -> &'g [u8] {
    match (&function.nodes[node].payload, callees[node]) {
        (_, Some(callee)) => &graph.functions[callee].outputs,
        (Payload::Operands(ports), _) => ports.results,
        _ => match function.nodes[node].kind {
            5 => &[1],
            6 => &[2],
            _ => &[3],
        },
    }
}

/// Finds what each reference names, trying each for 11 and then for 12.
fn find_sources(
    graph: &Graph,
    function: &Function,
    node_of: &HashMap<u16, usize>,
    callees: &[Option<usize>],
) -> Result<Vec<Source>, Refusal> {
    let mut sources = Vec::with_capacity(function.references.len());
    let mut resolve = |reference: &Reference, wanted: u8| {
        let port = reference.port as usize;
        let found = if reference.node == 0 {
            let ty = function.inputs.get(port);
            ty.map(|&ty| (Source::Input(port), ty))
        } else {
            node_of.get(&reference.node).and_then(|&node| {
                let ty = result_types(graph, function, callees, node).get(port);
                ty.map(|&ty| (Source::Port { node, port }, ty))
            })
        };
        match found {
            None => refuse(11, reference.place),
            Some((_, ty)) if ty != wanted => refuse(12, reference.place),
            Some((source, _)) => {
                sources.push(source);
                Ok(())
            }
        }
    };
    for (reference, &ty) in function.references.iter().zip(&function.outputs) {
        resolve(reference, ty)?;
    }
    for (index, node) in function.nodes.iter().enumerate() {
        let wanted: &[u8] = match (&node.payload, callees[index]) {
            (_, Some(callee)) => &graph.functions[callee].inputs,
            (Payload::Operands(ports), _) => ports.operands,
            _ => &[],
        };
        for (reference, &ty) in function.node_references(node).iter().zip(wanted) {
            resolve(reference, ty)?;
        }
    }
    Ok(sources)
}

/// The first node in the table that lies on a loop.
///
/// Nodes that can return to each other are one strongly connected component
/// (Tarjan). A node lies on a loop when its component has another node, or when
/// it reads itself.
fn first_on_loop(function: &Function, sources: &[Source]) -> Option<usize> {
    let count = function.nodes.len();
    let mut search = Search {
        function,
        sources,
        number: vec![0; count],
        lowest: vec![0; count],
        open: vec![false; count],
        stack: Vec::with_capacity(count),
        next: 1,
        first: None,
    };
    for node in 0..count {
        if search.number[node] == 0 {
            search.visit(node);
        }
    }
    search.first
}

struct Search<'s> {
    function: &'s Function<'s>,
    sources: &'s [Source],
    /// The order of the first visit, from 1; 0 for not visited.
    number: Vec<u32>,
    /// The lowest number that can be reached among the open nodes.
    lowest: Vec<u32>,
    open: Vec<bool>,
    stack: Vec<usize>,
    next: u32,
    /// The first node found on a loop so far.
    first: Option<usize>,
}

impl Search<'_> {
    fn visit(&mut self, node: usize) {
        self.number[node] = self.next;
        self.lowest[node] = self.next;
        self.next += 1;
        self.open[node] = true;
        self.stack.push(node);
        let head = &self.function.nodes[node];
        let mut reads_itself = false;
        for k in head.first..head.first + head.count {
            let Source::Port { node: read, .. } = self.sources[k] else {
                continue;
            };
            reads_itself |= read == node;
            if self.number[read] == 0 {
                self.visit(read);
                self.lowest[node] = self.lowest[node].min(self.lowest[read]);
            } else if self.open[read] {
                self.lowest[node] = self.lowest[node].min(self.number[read]);
            }
        }
        if self.lowest[node] != self.number[node] {
            return;
        }
        let alone = self.stack.last() == Some(&node);
        while let Some(member) = self.stack.pop() {
            self.open[member] = false;
            if !alone || reads_itself {
                self.first = Some(self.first.map_or(member, |first| first.min(member)));
            }
            if member == node {
                break;
            }
        }
    }
}

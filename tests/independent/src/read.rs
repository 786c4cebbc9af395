//! Reading a table from front to back: refusals 1 to 8.

use crate::ports::{CALL, Ports, constant_words, ports};
use crate::{Refusal, refuse};

/// A table as read.
pub struct Graph<'a> {
    pub functions: Vec<Function<'a>>,
}

pub struct Function<'a> {
    pub place: usize,
    pub id: u16,
    pub inputs: Vec<u8>,
    /// The type of each output; its reference has the same index in `references`.
    pub outputs: Vec<u8>,
    pub nodes: Vec<Node<'a>>,
    /// All references in table order: the outputs' first, then each node's.
    pub references: Vec<Reference>,
}

pub struct Node<'a> {
    pub place: usize,
    pub id: u16,
    pub kind: u8,
    pub ty: u8,
    pub payload: Payload<'a>,
    /// The first of the node's references, and how many it has.
    pub first: usize,
    pub count: usize,
}

pub enum Payload<'a> {
    /// The bytes of a constant.
    Constant(&'a [u8]),
    /// The id of the function called.
    Call(u16),
    /// A kind that only has operands.
    Operands(Ports),
}

#[derive(Clone, Copy)]
pub struct Reference {
    pub place: usize,
    pub node: u16,
    pub port: u8,
}

impl<'a> Function<'a> {
    pub fn node_references(&self, node: &Node) -> &[Reference] {
        &self.references[node.first..node.first + node.count]
    }
}

/// The little-endian u16 at the front of these bytes.
fn u16_of(bytes: &[u8]) -> u16 {
    u16::from_le_bytes([bytes[0], bytes[1]])
}

fn reference(bytes: &[u8], place: usize) -> Reference {
    Reference {
        place,
        node: u16_of(bytes),
        port: bytes[2],
    }
}

/// Whether eight bytes are a finite binary64.
pub fn finite(bytes: &[u8]) -> bool {
    f64::from_le_bytes(bytes.try_into().unwrap()).is_finite()
}

struct Reader<'a> {
    table: &'a [u8],
    at: usize,
}

impl<'a> Reader<'a> {
    /// Takes a record of this length, or refuses with 5 at its first byte.
    fn record(&mut self, length: usize) -> Result<&'a [u8], Refusal> {
        match self.table.get(self.at..self.at + length) {
            Some(bytes) => {
                self.at += length;
                Ok(bytes)
            }
            None => refuse(5, self.at),
        }
    }

    fn function(&mut self) -> Result<Function<'a>, Refusal> {
        let place = self.at;
        let head = self.record(6)?;
        let id = u16_of(head);
        let (input_count, output_count) = (head[2], head[3]);
        let node_count = u16_of(&head[4..]);
        if id == 0 || input_count > 8 || output_count == 0 || output_count > 8 || node_count > 256 {
            return refuse(6, place);
        }
        let mut inputs = Vec::with_capacity(input_count as usize);
        for _ in 0..input_count {
            let ty = self.record(1)?[0];
            if !(1..=3).contains(&ty) {
                return refuse(6, self.at - 1);
            }
            inputs.push(ty);
        }
        let mut outputs = Vec::with_capacity(output_count as usize);
        let mut references = Vec::with_capacity(output_count as usize + 2 * node_count as usize);
        for _ in 0..output_count {
            let place = self.at;
            let entry = self.record(4)?;
            if !(1..=3).contains(&entry[0]) {
                return refuse(6, place);
            }
            outputs.push(entry[0]);
            references.push(reference(&entry[1..], place + 1));
        }
        let mut nodes = Vec::with_capacity(node_count as usize);
        for _ in 0..node_count {
            nodes.push(self.node(&mut references)?);
        }
        Ok(Function {
            place,
            id,
            inputs,
            outputs,
            nodes,
            references,
        })
    }

    fn node(&mut self, references: &mut Vec<Reference>) -> Result<Node<'a>, Refusal> {
        let place = self.at;
        let head = self.record(4)?;
        let (id, kind, ty) = (u16_of(head), head[2], head[3]);
        let known = ports(kind, ty);
        if id == 0 || (known.is_none() && (kind != CALL || ty != 0)) {
            return refuse(6, place);
        }
        let first = references.len();
        let payload = if let Some(words) = constant_words(kind) {
            let bytes = self.record(8 * words)?;
            if !bytes.chunks_exact(8).all(finite) {
                return refuse(7, place + 4);
            }
            Payload::Constant(bytes)
        } else if let Some(ports) = known {
            self.references(ports.operands.len(), references)?;
            Payload::Operands(ports)
        } else {
            let call = self.record(3)?;
            if call[2] > 8 {
                return refuse(6, place + 4);
            }
            self.references(call[2] as usize, references)?;
            Payload::Call(u16_of(call))
        };
        Ok(Node {
            place,
            id,
            kind,
            ty,
            payload,
            first,
            count: references.len() - first,
        })
    }

    /// Takes this many references together, as one record.
    fn references(&mut self, count: usize, into: &mut Vec<Reference>) -> Result<(), Refusal> {
        let place = self.at;
        let bytes = self.record(3 * count)?;
        for (k, bytes) in bytes.chunks_exact(3).enumerate() {
            into.push(reference(bytes, place + 3 * k));
        }
        Ok(())
    }
}

/// Reads a table, or gives the first of refusals 1 to 8.
pub fn read(table: &[u8]) -> Result<Graph<'_>, Refusal> {
    if table.len() < 8 {
        return refuse(1, 0);
    }
    if &table[..3] != b"IFG" {
        return refuse(2, 0);
    }
    if u16_of(&table[3..]) != 1 {
        return refuse(3, 3);
    }
    if u16_of(&table[6..]) as usize != table.len() {
        return refuse(4, 6);
    }
    let function_count = table[5];
    if !(1..=16).contains(&function_count) {
        return refuse(6, 5);
    }
    let mut reader = Reader { table, at: 8 };
    let mut functions = Vec::with_capacity(function_count as usize);
    for _ in 0..function_count {
        functions.push(reader.function()?);
    }
    if reader.at != table.len() {
        return refuse(8, reader.at);
    }
    Ok(Graph { functions })
}

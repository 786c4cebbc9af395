//! A graph as data that can be built, changed and written as a table.

use crate::kinds::*;

#[derive(Clone, Copy, Debug, PartialEq, Eq)]
pub struct Reference {
    pub node: u16,
    pub port: u8,
}

impl Reference {
    /// Another port of the same node.
    pub fn port(self, port: u8) -> Reference {
        Reference { port, ..self }
    }
}

/// Input n of the function itself.
pub fn input(n: u8) -> Reference {
    Reference { node: 0, port: n }
}

#[derive(Clone, Debug)]
pub enum Payload {
    Constant(Vec<u64>),
    Call(u16),
    Operands,
}

#[derive(Clone, Debug)]
pub struct Node {
    pub id: u16,
    pub kind: u8,
    pub ty: u8,
    pub payload: Payload,
    pub references: Vec<Reference>,
}

impl Node {
    /// The bytes that the node takes in a table.
    pub fn size(&self) -> usize {
        let own = match &self.payload {
            Payload::Constant(words) => 8 * words.len(),
            Payload::Call(_) => 3,
            Payload::Operands => 0,
        };
        4 + own + 3 * self.references.len()
    }
}

#[derive(Clone, Debug, Default)]
pub struct Function {
    pub id: u16,
    pub inputs: Vec<u8>,
    pub outputs: Vec<(u8, Reference)>,
    pub nodes: Vec<Node>,
}

impl Function {
    pub fn new(id: u16, inputs: &[u8]) -> Function {
        Function {
            id,
            inputs: inputs.to_vec(),
            ..Function::default()
        }
    }

    fn add(&mut self, kind: u8, ty: u8, payload: Payload, references: &[Reference]) -> Reference {
        let id = self.nodes.len() as u16 + 1;
        self.nodes.push(Node {
            id,
            kind,
            ty,
            payload,
            references: references.to_vec(),
        });
        Reference { node: id, port: 0 }
    }

    /// Adds a node with operands.
    pub fn node(&mut self, kind: u8, ty: u8, operands: &[Reference]) -> Reference {
        self.add(kind, ty, Payload::Operands, operands)
    }

    /// Adds a constant, constvec or constmat, by the count of its components.
    pub fn constant(&mut self, components: &[f64]) -> Reference {
        let kind = match components.len() {
            1 => CONSTANT,
            3 => CONSTVEC,
            _ => CONSTMAT,
        };
        let words = components.iter().map(|x| x.to_bits()).collect();
        self.add(kind, 0, Payload::Constant(words), &[])
    }

    /// Adds a call.
    pub fn call(&mut self, callee: u16, arguments: &[Reference]) -> Reference {
        self.add(CALL, 0, Payload::Call(callee), arguments)
    }

    pub fn output(&mut self, ty: u8, reference: Reference) {
        self.outputs.push((ty, reference));
    }
}

#[derive(Clone, Debug, Default)]
pub struct Graph {
    pub functions: Vec<Function>,
}

impl Graph {
    /// The table. The length field holds the length's lowest 16 bits.
    pub fn to_bytes(&self) -> Vec<u8> {
        let mut table = b"IFG\x01\x00".to_vec();
        table.extend([self.functions.len() as u8, 0, 0]);
        let reference = |table: &mut Vec<u8>, r: &Reference| {
            table.extend(r.node.to_le_bytes());
            table.push(r.port);
        };
        for function in &self.functions {
            table.extend(function.id.to_le_bytes());
            table.extend([function.inputs.len() as u8, function.outputs.len() as u8]);
            table.extend((function.nodes.len() as u16).to_le_bytes());
            table.extend(&function.inputs);
            for (ty, r) in &function.outputs {
                table.push(*ty);
                reference(&mut table, r);
            }
            for node in &function.nodes {
                table.extend(node.id.to_le_bytes());
                table.extend([node.kind, node.ty]);
                match &node.payload {
                    Payload::Constant(words) => {
                        for word in words {
                            table.extend(word.to_le_bytes());
                        }
                    }
                    Payload::Call(callee) => {
                        table.extend(callee.to_le_bytes());
                        table.push(node.references.len() as u8);
                    }
                    Payload::Operands => {}
                }
                for r in &node.references {
                    reference(&mut table, r);
                }
            }
        }
        mend_length(&mut table);
        table
    }

    /// The types of a node's results.
    pub fn result_types(&self, node: &Node) -> Vec<u8> {
        match node.payload {
            Payload::Call(callee) => {
                let callee = self.functions.iter().find(|f| f.id == callee);
                let outputs = callee.map_or(&[][..], |f| &f.outputs);
                outputs.iter().map(|output| output.0).collect()
            }
            _ => {
                let ports = independent::ports(node.kind, node.ty);
                ports.map_or(vec![], |ports| ports.results.to_vec())
            }
        }
    }
}

/// Sets the length field to the table's length.
pub fn mend_length(table: &mut [u8]) {
    let length = table.len() as u16;
    if table.len() >= 8 {
        table[6..8].copy_from_slice(&length.to_le_bytes());
    }
}

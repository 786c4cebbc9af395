//! What a graph means, by references alone: no list, no addresses, no schedule.

use crate::NAN;
use crate::judge::{Judged, Source, judge};
use crate::read::{Graph, Payload, read};

#[derive(Clone, Debug)]
enum Value {
    Scalar(f64),
    Vector([f64; 3]),
    Matrix(Box<[[f64; 4]; 4]>),
}

use Value::{Matrix, Scalar, Vector};

impl Value {
    /// A value of this type from the front of these words, and the words behind it.
    fn take(ty: u8, words: &[u64]) -> (Value, &[u64]) {
        let at = |k: usize| f64::from_bits(words[k]);
        match ty {
            1 => (Scalar(at(0)), &words[1..]),
            2 => (Vector([at(0), at(1), at(2)]), &words[3..]),
            _ => {
                let row = |r: usize| [at(4 * r), at(4 * r + 1), at(4 * r + 2), at(4 * r + 3)];
                (matrix([row(0), row(1), row(2), row(3)]), &words[16..])
            }
        }
    }

    fn components(&self) -> Vec<f64> {
        match self {
            Scalar(a) => vec![*a],
            Vector(a) => a.to_vec(),
            Matrix(a) => a.concat(),
        }
    }

    fn scalar(&self) -> f64 {
        match self {
            Scalar(a) => *a,
            _ => panic!("a scalar is wanted"),
        }
    }

    fn vector(&self) -> [f64; 3] {
        match self {
            Vector(a) => *a,
            _ => panic!("a vector is wanted"),
        }
    }

    fn matrix(&self) -> &[[f64; 4]; 4] {
        match self {
            Matrix(a) => a,
            _ => panic!("a matrix is wanted"),
        }
    }
}

fn matrix(rows: [[f64; 4]; 4]) -> Value {
    Matrix(Box::new(rows))
}

/// The meanings of a function's outputs, as words.
///
/// The table is accepted, has the function, and the arguments are the words of its inputs.
pub fn evaluate(table: &[u8], id: u16, arguments: &[u64]) -> Vec<u64> {
    Meaning::of(table, id).on(arguments)
}

/// A function of an accepted table, to be evaluated more than once.
pub struct Meaning<'a> {
    graph: Graph<'a>,
    judged: Judged,
    index: usize,
}

impl Meaning<'_> {
    pub fn of(table: &[u8], id: u16) -> Meaning<'_> {
        let graph = read(table).expect("an accepted table");
        let judged = judge(&graph).expect("an accepted table");
        let index = graph
            .functions
            .iter()
            .position(|f| f.id == id)
            .expect("the function stands in the table");
        Meaning {
            graph,
            judged,
            index,
        }
    }

    /// The meanings of its outputs on the words of its inputs.
    pub fn on(&self, arguments: &[u64]) -> Vec<u64> {
        let mut inputs = Vec::new();
        let mut rest = arguments;
        for &ty in &self.graph.functions[self.index].inputs {
            let (value, behind) = Value::take(ty, rest);
            inputs.push(value);
            rest = behind;
        }
        let outputs = function(&self.graph, &self.judged, self.index, inputs);
        let word = |x: f64| if x.is_nan() { NAN } else { x.to_bits() };
        outputs
            .iter()
            .flat_map(Value::components)
            .map(word)
            .collect()
    }
}

/// The meanings of a function's outputs on these inputs.
fn function(graph: &Graph, judged: &Judged, index: usize, inputs: Vec<Value>) -> Vec<Value> {
    let function = &graph.functions[index];
    let mut call = Call {
        graph,
        judged,
        index,
        inputs,
        known: vec![None; function.nodes.len()],
    };
    let outputs = &judged.sources[index][..function.outputs.len()];
    outputs.iter().map(|&source| call.meaning(source)).collect()
}

/// One call of a function.
struct Call<'g> {
    graph: &'g Graph<'g>,
    judged: &'g Judged,
    index: usize,
    inputs: Vec<Value>,
    /// The results of each node, once asked for.
    known: Vec<Option<Vec<Value>>>,
}

impl Call<'_> {
    /// The meaning of a reference.
    fn meaning(&mut self, source: Source) -> Value {
        match source {
            Source::Input(n) => self.inputs[n].clone(),
            Source::Port { node, port } => {
                if self.known[node].is_none() {
                    let results = self.node(node);
                    self.known[node] = Some(results);
                }
                self.known[node].as_ref().unwrap()[port].clone()
            }
        }
    }

    /// A node's results on its references' meanings.
    fn node(&mut self, index: usize) -> Vec<Value> {
        let node = &self.graph.functions[self.index].nodes[index];
        let sources = &self.judged.sources[self.index][node.first..node.first + node.count];
        let operands: Vec<Value> = sources.iter().map(|&source| self.meaning(source)).collect();
        match (&node.payload, self.judged.callees[self.index][index]) {
            (_, Some(callee)) => function(self.graph, self.judged, callee, operands),
            (Payload::Constant(bytes), _) => {
                let words: Vec<u64> = bytes
                    .chunks_exact(8)
                    .map(|b| u64::from_le_bytes(b.try_into().unwrap()))
                    .collect();
                vec![Value::take(node.kind - 4, &words).0]
            }
            _ => results(node.kind, &operands),
        }
    }
}

/// The arithmetic of the kinds that have operands.
fn results(kind: u8, operands: &[Value]) -> Vec<Value> {
    let a = &operands[0];
    match kind {
        8 => vec![Vector([
            a.scalar(),
            operands[1].scalar(),
            operands[2].scalar(),
        ])],
        9 => vec![Vector([a.scalar(); 3])],
        10 => a.vector().map(Scalar).to_vec(),
        11 => {
            let mut rows = [[0.0; 4]; 4];
            for (k, operand) in operands.iter().enumerate() {
                rows[k / 4][k % 4] = operand.scalar();
            }
            vec![matrix(rows)]
        }
        12 => {
            let mut rows = [[0.0, 0.0, 0.0, 0.0]; 4];
            for (column, operand) in operands.iter().enumerate() {
                let [x, y, z] = operand.vector();
                rows[0][column] = x;
                rows[1][column] = y;
                rows[2][column] = z;
            }
            rows[3] = [0.0, 0.0, 0.0, 1.0];
            vec![matrix(rows)]
        }
        13 => {
            let mut rows = [[0.0; 4]; 4];
            for (row, operand) in operands.iter().enumerate() {
                let [x, y, z] = operand.vector();
                rows[row] = [x, y, z, if row == 3 { 1.0 } else { 0.0 }];
            }
            vec![matrix(rows)]
        }
        14 => {
            let ([ax, ay, az], [bx, by, bz]) = (a.vector(), operands[1].vector());
            vec![Scalar((ax * bx + ay * by) + az * bz)]
        }
        15 => {
            let ([ax, ay, az], [bx, by, bz]) = (a.vector(), operands[1].vector());
            let x = ay * bz - az * by;
            let y = az * bx - ax * bz;
            let z = ax * by - ay * bx;
            vec![Vector([x, y, z])]
        }
        16 => {
            let m = a.matrix();
            let [x, y, z] = operands[1].vector();
            let row = |r: usize| ((m[r][0] * x + m[r][1] * y) + m[r][2] * z) + m[r][3];
            vec![Vector([row(0), row(1), row(2)])]
        }
        17 => {
            let m = a.matrix();
            let mut rows = [[0.0; 4]; 4];
            for r in 0..4 {
                for c in 0..4 {
                    rows[r][c] = m[c][r];
                }
            }
            vec![matrix(rows)]
        }
        _ => vec![by_component(kind, operands)],
    }
}

/// The kinds with T, component by component.
fn by_component(kind: u8, operands: &[Value]) -> Value {
    let component = |x: &[f64]| match (kind, x) {
        (1, [a, b]) => a + b,
        (2, [a, b]) => a - b,
        (3, [a, b]) => a * b,
        (4, [a, b]) => a / b,
        (18, [a, b]) if a < b => *a,
        (18, [_, b]) => *b,
        (19, [a, b]) if a > b => *a,
        (19, [_, b]) => *b,
        (20, [a]) => f64::from_bits(a.to_bits() & !(1 << 63)),
        (21, [a, b]) => a % b,
        (22, [a, b, c, _]) if a < b => *c,
        (22, [_, _, _, d]) => *d,
        (23, [a, lo, _]) if a < lo => *lo,
        (23, [a, _, hi]) if hi < a => *hi,
        (23, [a, _, _]) => *a,
        _ => unreachable!("kind {kind} with {} operands", x.len()),
    };
    match &operands[0] {
        Scalar(_) => {
            let x: Vec<f64> = operands.iter().map(Value::scalar).collect();
            Scalar(component(&x))
        }
        Vector(_) => {
            let mut result = [0.0; 3];
            for (k, to) in result.iter_mut().enumerate() {
                let x: Vec<f64> = operands.iter().map(|v| v.vector()[k]).collect();
                *to = component(&x);
            }
            Vector(result)
        }
        Matrix(_) => {
            let mut rows = [[0.0; 4]; 4];
            for (r, row) in rows.iter_mut().enumerate() {
                for (c, to) in row.iter_mut().enumerate() {
                    let x: Vec<f64> = operands.iter().map(|m| m.matrix()[r][c]).collect();
                    *to = component(&x);
                }
            }
            matrix(rows)
        }
    }
}

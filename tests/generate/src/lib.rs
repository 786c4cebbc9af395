//! Graph tables and board lists: at random, damaged, and built by hand.

pub mod codes;
pub mod full;
pub mod graph;
pub mod heat_exchanger;
pub mod kinds;
pub mod proposals;
pub mod random;
pub mod reorder;
pub mod reuse;
pub mod shapes;
pub mod tables;

/// The tables of the folder `examples`, by file name.
pub fn examples() -> Vec<(&'static str, Vec<u8>)> {
    vec![
        ("a.ifg", shapes::case_a().to_bytes()),
        ("k.ifg", shapes::case_k().to_bytes()),
        ("n.ifg", shapes::case_n(0).to_bytes()),
        ("o.ifg", shapes::case_o(0).to_bytes()),
        ("heat_exchanger.ifg", heat_exchanger::graph().to_bytes()),
    ]
}

//! The functions of the tables in examples/, for the tests of the programs that draw.

/// Each table, once for each of its functions, with that function's id.
pub fn functions() -> Vec<(Vec<u8>, u16)> {
    let tables = [
        ("a", 1),
        ("heat_exchanger", 6),
        ("k", 1),
        ("n", 2),
        ("o", 2),
    ];
    let of = |(name, functions): (&str, u16)| {
        let table = table(name);
        (1..=functions).map(move |id| (table.clone(), id))
    };
    tables.into_iter().flat_map(of).collect()
}

/// A table by its name.
pub fn table(name: &str) -> Vec<u8> {
    let path = format!("{}/../{name}.ifg", env!("CARGO_MANIFEST_DIR"));
    std::fs::read(path).expect("a table of examples/")
}

//! The tables and lists as files, for `bench/against`.

use std::path::Path;

use crate::lists::lists;
use crate::tables::{calls, cases};

/// Each as a file: a function's id and its table, or 0 and a code.
pub fn write(dir: &Path) {
    let tables = cases()
        .into_iter()
        .chain(calls())
        .map(|case| (case.name.to_string(), case.id, case.table));
    let codes = lists().into_iter().map(|list| (list.name, 0, list.code));
    for (k, (name, id, bytes)) in tables.chain(codes).enumerate() {
        let mut file = id.to_le_bytes().to_vec();
        file.extend(bytes);
        std::fs::write(dir.join(format!("{k:02} {name}")), file).expect("a file");
    }
}

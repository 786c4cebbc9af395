//! The lister's text.

use crate::compile::sums;
use crate::judge::judge;
use crate::read::read;
use crate::{MOST_OPERATIONS, MOST_WORDS, Refusal};

/// What the lister prints for this input, of which it looks at the first 65,536 bytes.
pub fn listing(bytes: &[u8]) -> Vec<u8> {
    let table = &bytes[..bytes.len().min(65_536)];
    match accepted(table) {
        Ok(text) => text.into_bytes(),
        Err(Refusal { number, place }) => format!("refused {number} at {place}\n").into_bytes(),
    }
}

fn accepted(table: &[u8]) -> Result<String, Refusal> {
    let graph = read(table)?;
    let judged = judge(&graph)?;
    let mut text = format!("accepted {}\n", graph.functions.len());
    for (function, sums) in graph.functions.iter().zip(sums(&graph, &judged)) {
        let limited = |count: u64, most: u64| match count <= most {
            true => count.to_string(),
            false => "over".to_string(),
        };
        let code = match sums.within_limits() {
            true => sums.code.to_string(),
            false => "none".to_string(),
        };
        text += &format!(
            "function {} inputs {} outputs {} nodes {} operations {} words {} code {}\n",
            function.id,
            function.inputs.len(),
            function.outputs.len(),
            function.nodes.len(),
            limited(sums.operations, MOST_OPERATIONS),
            limited(sums.words, MOST_WORDS),
            code,
        );
    }
    Ok(text)
}

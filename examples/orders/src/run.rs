//! Both lists run at the same points by the library, and their output words compared.

use pictures::board_list::BoardList;
use pictures::points::outputs;

/// How many output words version 1's code and the other list's give, bit for bit the same; or what is not as proved.
pub fn same_outputs(list: &BoardList, code: &[u8], other: &BoardList) -> Result<usize, String> {
    let own = outputs(list, code).map_err(|why| format!("version 1's list is {why}"))?;
    let others = outputs(other, &other.code_2())
        .map_err(|why| format!("the list in another order is {why}"))?;
    if own.len() != others.len() {
        return Err(format!(
            "{} output words in version 1, {} in another order",
            own.len(),
            others.len()
        ));
    }
    match (0..own.len()).find(|&word| own[word] != others[word]) {
        None => Ok(own.len()),
        Some(word) => {
            let (point, word) = (word / list.outputs.len(), word % list.outputs.len());
            Err(format!(
                "output word {word} at point {point} differs in another order"
            ))
        }
    }
}

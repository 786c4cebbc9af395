//! A list run by the library at points that look random and are the same on every machine.

use crate::board_list::BoardList;
use crate::random::Random;

pub const POINTS: usize = 1024;

/// Arguments at a point: quarters from -16 to 16.
fn arguments(random: &mut Random, words: usize) -> Vec<u64> {
    let mut quarters = || random.below(129) as f64 / 4.0 - 16.0;
    (0..words).map(|_| quarters().to_bits()).collect()
}

/// The output words of a code at all points, end to end, in buffers that are just long enough; a refusal in words.
pub fn outputs(list: &BoardList, code: &[u8]) -> Result<Vec<u64>, String> {
    let mut random = Random::new(0);
    let (mut work, mut out) = (vec![0; list.words], vec![0; list.outputs.len()]);
    let mut outputs = Vec::with_capacity(POINTS * out.len());
    for _ in 0..POINTS {
        let arguments = arguments(&mut random, list.arguments);
        // A point at a time: what is proved of a router's lists is the promise of this call.
        let count = quetlapin::run(code, &arguments, &mut work, &mut out)
            .map_err(|refusal| format!("refused with number {}", refusal.number))?;
        outputs.extend(&out[..count]);
    }
    Ok(outputs)
}

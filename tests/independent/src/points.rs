//! Running a board list at many points in one call: refusals 18 to 22.

use crate::run::{check_code, judge_lent, run_judged};
use crate::{MOST_POINTS, Refusal, refuse};

/// Runs a code at points whose arguments stand end to end; gives the count of all output words.
///
/// The code is checked once and everything is judged before the first run. Each point then runs
/// on the work buffer as the point before left it.
pub fn run_points(
    code: &[u8],
    count: u64,
    arguments: &[u64],
    work: &mut [u64],
    out: &mut [u64],
) -> Result<usize, Refusal> {
    let checked = check_code(code)?;
    if count > MOST_POINTS {
        return refuse(22, 0);
    }
    let count = count as usize;
    judge_lent(&checked, count, arguments, work, out)?;
    let (words, outputs) = (checked.argument_words, checked.output_words);
    for point in 0..count {
        let arguments = &arguments[point * words..][..words];
        let out = &mut out[point * outputs..][..outputs];
        run_judged(&checked, arguments, work, out);
    }
    Ok(count * outputs)
}

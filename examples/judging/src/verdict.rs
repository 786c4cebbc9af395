//! What the library says of both lists, and what their runs give at the same points.

use pictures::board_list::BoardList;
use pictures::points::outputs;
use quetlapin::Refusal;

use crate::slip::Slip;

/// A function of a table: its list of version 1, and that as code.
pub struct Function<'a> {
    pub table: &'a [u8],
    pub id: u16,
    pub list: BoardList,
    pub code: Vec<u8>,
}

/// What was found, where all is as proved.
#[derive(Debug, PartialEq, Eq)]
pub struct Found {
    /// How many output words the accepted list gives, bit for bit those of version 1.
    pub same: usize,
    /// At how many points the spoiled list, run all the same, gives other output words.
    pub differing: usize,
}

impl Function<'_> {
    /// The library's judgement of a proposed list, whose instructions have these numbers in version 1.
    pub fn judged(&self, list: &BoardList, order: &[usize]) -> Result<usize, Refusal> {
        let numbers: Vec<u16> = order.iter().map(|&number| number as u16).collect();
        quetlapin::judge_placement(self.table, self.id, &list.code_2(), &numbers)
    }

    /// What is found of a proposed list and of the same with this slip; or what is not as proved.
    pub fn found(
        &self,
        order: &[usize],
        proposed: &BoardList,
        spoiled: &BoardList,
        slip: &Slip,
    ) -> Result<Found, String> {
        if let Err(refusal) = self.judged(proposed, order) {
            return Err(format!("the router's list is {refusal}"));
        }
        let wanted = Err(Refusal {
            number: 29,
            place: slip.reader,
        });
        match self.judged(spoiled, order) {
            answer if answer == wanted => (),
            Ok(_) => return Err("the spoiled list is accepted".into()),
            Err(refusal) => {
                let reader = slip.reader;
                return Err(format!(
                    "the spoiled list is {refusal}, not refused 29 at {reader}"
                ));
            }
        }
        let own = outputs(&self.list, &self.code)
            .map_err(|why| format!("version 1's list is {why} in a run"))?;
        let differing = |name: &str, list: &BoardList| {
            let others = outputs(list, &list.code_2())
                .map_err(|why| format!("{name} list is {why} in a run"))?;
            let width = self.list.outputs.len();
            let points = own.chunks(width).zip(others.chunks(width));
            Ok::<usize, String>(points.filter(|(own, other)| own != other).count())
        };
        match differing("the router's", proposed)? {
            0 => Ok(Found {
                same: own.len(),
                differing: differing("the spoiled", spoiled)?,
            }),
            points => Err(format!(
                "the router's list is accepted, and its outputs differ at {points} points"
            )),
        }
    }
}

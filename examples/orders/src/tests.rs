//! What is asked of a placement, stated apart from the code that makes it; what is asked of an order stands beside that.

use pictures::board_list::{self, BoardList, MOST_WORDS};
use pictures::examples;
use pictures::points::POINTS;
use pictures::random::Random;
use pictures::routing::Routing;

use crate::routing;
use crate::run;

fn each(test: impl Fn(&[u8], &BoardList, &Routing)) {
    for (table, id) in examples::functions() {
        let code = board_list::compile(&table, id, 1).unwrap();
        let list = BoardList::read(&code);
        for seed in 0..4 {
            test(&code, &list, &routing::any(&list, &mut Random::new(seed)));
        }
    }
}

#[test]
fn each_value_has_words_of_its_own() {
    each(|_, list, routing| {
        let mut taken = vec![false; MOST_WORDS];
        taken[..list.arguments].fill(true);
        assert_eq!(routing.addresses.len(), list.instructions.len());
        for (instruction, &address) in list.instructions.iter().zip(&routing.addresses) {
            // A word of 8,192 or above would be outside.
            let words = &mut taken[address..address + instruction.result.len()];
            assert!(words.iter().all(|taken| !taken));
            words.fill(true);
        }
    });
}

#[test]
fn the_other_list_gives_the_same_outputs() {
    each(|code, list, routing| {
        let same = run::same_outputs(list, code, &routing.list(list));
        assert_eq!(same, Ok(POINTS * list.outputs.len()));
    });
}

#[test]
fn a_wrong_list_is_found() {
    let code = board_list::compile(&examples::table("heat_exchanger"), 5, 1).unwrap();
    let list = BoardList::read(&code);
    let found = |other: &BoardList| run::same_outputs(&list, &code, other).unwrap_err();
    // The last instruction reads the one before it.
    let mut early = list.clone();
    let last = early.instructions.len() - 1;
    early.instructions.swap(last - 1, last);
    assert_eq!(
        found(&early),
        "the list in another order is refused with number 18"
    );
    let mut another = list.clone();
    another.outputs[0] -= 1;
    assert!(found(&another).starts_with("output word 0 at point "));
}

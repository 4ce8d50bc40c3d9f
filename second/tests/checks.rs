//! The checks of grid calls find spoilt counts, here on the chain of three of case G3, two cells wrong and one right,
//! and a spoilt index, here of two rows and three columns with K = 2.

use second::call::{GridPlan, GridRead, GridStore};
use second::check_grid::{check_plan, check_read, check_store};
use second::grid::{Answer, ReadAnswer};

/// What the plan of G3 answers, and the store with its counters.
const GOOD: Answer = Answer {
    number: 0,
    levels: 2,
    stuck: 3,
    wrong: 2,
    right: 1,
    index: 0,
};

/// The answer with each count one too high or too low, and with wrong and right cells exchanged or moved.
fn spoilt_answers() -> Vec<Answer> {
    let mut answers = Vec::new();
    for change in [1, -1] {
        let moved = |count: usize| count.checked_add_signed(change).unwrap();
        answers.extend([
            Answer {
                levels: moved(2),
                ..GOOD
            },
            Answer {
                stuck: moved(3),
                ..GOOD
            },
            Answer {
                wrong: moved(2),
                ..GOOD
            },
            Answer {
                right: moved(1),
                ..GOOD
            },
            Answer {
                stuck: moved(3),
                wrong: moved(2),
                ..GOOD
            },
            Answer {
                stuck: moved(3),
                right: moved(1),
                ..GOOD
            },
        ]);
    }
    answers.push(Answer {
        wrong: 1,
        right: 2,
        ..GOOD
    });
    answers.push(Answer {
        wrong: 3,
        right: 0,
        ..GOOD
    });
    answers.push(Answer { index: 1, ..GOOD });
    answers
}

#[test]
fn spoilt_counts_are_found() {
    let plan = GridPlan {
        numbers: [2, 2, 3],
        data: vec![0, 0],
        mask: vec![3, 2],
        values: vec![1, 2],
        counters: vec![0x96],
    };
    let store = GridStore {
        numbers: plan.numbers,
        data: plan.data.clone(),
        mask: plan.mask.clone(),
        values: plan.values.clone(),
        counters: plan.counters.clone(),
        cells: vec![1, 3],
    };
    assert_eq!(check_plan(&plan, GOOD), Ok(()));
    assert_eq!(check_store(&store, GOOD), Ok(()));
    for answer in spoilt_answers() {
        assert!(check_plan(&plan, answer).is_err(), "{answer:?}");
        assert!(check_store(&store, answer).is_err(), "{answer:?}");
    }
}

/// Whether the checks of a read and of a store, which have to agree, take these counters, number and index.
fn takes(counters: [u8; 2], number: u8, index: usize) -> bool {
    let read = GridRead {
        numbers: [2, 3, 2],
        cells: vec![5, 3],
        counters: counters.to_vec(),
        output: vec![9, 9],
    };
    let store = GridStore {
        numbers: read.numbers,
        data: vec![5, 3],
        mask: vec![1, 3],
        values: vec![4, 3],
        counters: read.counters.clone(),
        cells: vec![9, 9],
    };
    let answer = Answer {
        number,
        levels: 0,
        stuck: 0,
        wrong: 0,
        right: 0,
        index,
    };
    let of_store = check_store(&store, answer).is_ok();
    let of_read = check_read(&read, ReadAnswer { number, index }).is_ok();
    assert_eq!(of_store, of_read, "{counters:x?}, {number}, {index}");
    of_read
}

#[test]
fn a_spoilt_index_is_found() {
    // Bad are row 1, then column 1 (with row 0 and column 0 at K), then row 1 and column 2, then none.
    let all = [
        ([0x2d, 0x01], Some(1)),
        ([0xe6, 0x00], Some(3)),
        ([0x0c, 0x03], Some(1)),
        ([0xaa, 0x02], None),
    ];
    for (counters, first_bad) in all {
        for index in (0..9).chain([255, usize::MAX]) {
            assert_eq!(takes(counters, 4, index), Some(index) == first_bad);
            for number in [1, 2, 3] {
                assert_eq!(takes(counters, number, index), index == 0);
            }
        }
    }
}

#[test]
fn a_counter_above_k_that_is_not_refused_is_found() {
    let store = GridStore {
        numbers: [2, 2, 2],
        data: vec![2, 1],
        mask: vec![0, 0],
        values: vec![0, 0],
        counters: vec![0xc0],
        cells: vec![2, 1],
    };
    let accepted = Answer {
        number: 0,
        levels: 3,
        stuck: 0,
        wrong: 0,
        right: 0,
        index: 0,
    };
    let found = check_store(&store, accepted).unwrap_err();
    assert!(found.starts_with("number 0 and index 0"), "{found}");
}

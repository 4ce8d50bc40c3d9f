//! The checks of conversions find spoilt ones, here of the counters 2 1 3, 0 1 from K = 3 to 4.

use second::call::{GridConvert, GridPlan};
use second::check_convert::{check_convert, check_larger_plans};
use second::grid::{Answer, ReadAnswer};

/// What an accepted conversion answers.
const ACCEPTED: ReadAnswer = ReadAnswer {
    number: 0,
    index: 0,
};

/// The conversion with this target and this output afterwards.
fn conversion(target: u64, output: &[u8]) -> GridConvert {
    GridConvert {
        numbers: [3, 2, 3, target],
        counters: vec![0x36, 0x01],
        output: output.to_vec(),
    }
}

#[test]
fn spoilt_outputs_are_found() {
    // In three bits 010 001 011 000 001 from the lowest on: 0x10ca.
    let good = [0xca, 0x10];
    assert_eq!(
        check_convert(&conversion(4, &good), &[9, 9], ACCEPTED),
        Ok(())
    );
    for bit in 0..16 {
        let mut spoilt = good;
        spoilt[bit / 8] ^= 1 << (bit % 8);
        let found = check_convert(&conversion(4, &spoilt), &[9, 9], ACCEPTED);
        assert!(found.is_err(), "bit {bit}");
    }
    for other in [&[0x36, 0x01][..], &[0xca], &[0xca, 0x10, 0x00]] {
        let found = check_convert(&conversion(4, other), &[9, 9], ACCEPTED);
        assert!(found.is_err(), "{other:x?}");
    }
    assert_eq!(
        check_convert(&conversion(3, &[0x36, 0x01]), &[9, 9], ACCEPTED),
        Ok(())
    );
    assert!(check_convert(&conversion(3, &good), &[9, 9], ACCEPTED).is_err());
    assert!(check_convert(&conversion(2, &[0x36, 0x01]), &[9, 9], ACCEPTED).is_err());
}

#[test]
fn spoilt_refusals_are_found() {
    let refused = |number, index| ReadAnswer { number, index };
    let call = conversion(4, &[9, 9]);
    assert_eq!(check_convert(&call, &[9, 9], refused(1, 0)), Ok(()));
    // The output was changed, an index was left, or no counter is above K.
    assert!(check_convert(&call, &[9, 8], refused(1, 0)).is_err());
    assert!(check_convert(&call, &[9, 9], refused(1, 2)).is_err());
    assert!(check_convert(&call, &[9, 9], refused(4, 2)).is_err());
    // At K = 2 the 3 of row 2 is bad, whatever the target.
    let mut bad = conversion(4, &[9, 9]);
    bad.numbers[2] = 2;
    for index in 0..6 {
        assert_eq!(
            check_convert(&bad, &[9, 9], refused(4, index)).is_ok(),
            index == 2
        );
    }
    bad.output = vec![0xca, 0x10];
    assert!(check_convert(&bad, &[9, 9], ACCEPTED).is_err());
}

#[test]
fn counters_that_no_larger_plan_has_are_found() {
    // G3 at K = 2, whose row counters are 2 1 and whose column counters are 1 2.
    let mut plan = GridPlan {
        numbers: [2, 2, 2],
        data: vec![0, 0],
        mask: vec![3, 2],
        values: vec![1, 2],
        counters: vec![0x96],
    };
    let good = Answer {
        number: 0,
        levels: 2,
        stuck: 3,
        wrong: 2,
        right: 1,
        index: 0,
    };
    assert_eq!(check_larger_plans(&plan, good), Ok(()));
    assert!(check_larger_plans(&plan, Answer { levels: 1, ..good }).is_err());
    for bit in 0..8 {
        plan.counters = vec![0x96 ^ 1 << bit];
        assert!(check_larger_plans(&plan, good).is_err(), "bit {bit}");
    }
}

//! The three agree on some calls, and the calls are the same each time.

use bench::agree::agree;

#[test]
fn they_agree_and_the_calls_are_the_same_each_time() {
    let tally = agree(3000).unwrap();
    assert_eq!(tally, agree(3000).unwrap());
    for counts in tally {
        assert_eq!(counts.iter().sum::<usize>(), 3000);
    }
}

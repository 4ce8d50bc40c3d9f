//! Whether archive, peer and second program agree: number, every count, the index and every buffer, call by
//! call; and of a transfer the number of each step.

use std::fmt::Debug;

use second::call::Call;

use crate::answers::Answer;
use crate::calls::{kind_of, Calls, KINDS, NUMBERS};
use crate::contestant::{Archive, Peer, Second};
use crate::input::Input;

/// So many calls of each kind are compared.
pub const CALLS_OF_A_KIND: usize = 50_000;

/// The seed of the calls.
pub const SEED: u64 = 2026;

/// How often each number from 0 to 13 came up, for each kind.
pub type Tally = [[usize; 14]; KINDS.len()];

/// The numbers that the report shows; 10 to 12 are no call's.
const SHOWN: [usize; 11] = [0, 1, 2, 3, 4, 5, 6, 7, 8, 9, 13];

/// Has all three make a call of one kind; the number, or what they said and did if they differ.
pub fn compare<I: Input + Debug + PartialEq>(call: &I) -> Result<usize, String> {
    let mut after = [call.clone(), call.clone(), call.clone()];
    let answers = [
        after[0].made_by::<Archive>(),
        after[1].made_by::<Peer>(),
        after[2].made_by::<Second>(),
    ];
    let agree = answers[0] == answers[2]
        && answers[1] == answers[2]
        && after[0] == after[2]
        && after[1] == after[2];
    if agree {
        return Ok(answers[2].number());
    }
    let mut told = format!("they disagree on this call:\n{call:x?}\n");
    for (name, (answer, after)) in ["archive", "peer", "second"]
        .iter()
        .zip(answers.iter().zip(&after))
    {
        told += &format!("{name} answers {answer:?} and leaves\n{after:x?}\n");
    }
    Err(told)
}

/// Has all three make a call of any kind.
fn compare_any(call: &Call) -> Result<usize, String> {
    match call {
        Call::PointerWrite(c) => compare(c),
        Call::PointerRead(c) => compare(c),
        Call::GridPlan(c) => compare(c),
        Call::GridRead(c) => compare(c),
        Call::GridStore(c) => compare(c),
        Call::GridConvert(c) => compare(c),
        Call::Transfer(c) => compare(c),
    }
}

/// Compares so many calls of each kind; how often each number came up, or the first call on which they differ.
pub fn agree(calls_of_a_kind: usize) -> Result<Tally, String> {
    let mut calls = Calls::new(SEED);
    let mut compared = [0; KINDS.len()];
    let mut tally = [[0; 14]; KINDS.len()];
    while compared.iter().any(|count| *count < calls_of_a_kind) {
        let call = calls.next_call();
        let kind = kind_of(&call);
        if compared[kind] < calls_of_a_kind {
            compared[kind] += 1;
            tally[kind][compare_any(&call)?] += 1;
        }
    }
    Ok(tally)
}

/// An error if a number that a kind can answer never came up, or one that it cannot did.
fn all_came_up(tally: &Tally) -> Result<(), String> {
    for (kind, counts) in tally.iter().enumerate() {
        for (number, times) in counts.iter().enumerate() {
            if NUMBERS[kind].contains(&number) != (*times > 0) {
                return Err(format!(
                    "{}: number {number} came up {times} times",
                    KINDS[kind]
                ));
            }
        }
    }
    Ok(())
}

/// Compares all the calls and prints how often each number came up; an error if they differ or a refusal is missing.
pub fn report() -> Result<(), String> {
    let tally = agree(CALLS_OF_A_KIND)?;
    println!("archive, peer and second program agree on {CALLS_OF_A_KIND} calls of each kind; they answer");
    println!();
    print!("| {:<13} |", "number");
    SHOWN.iter().for_each(|number| print!(" {number:>6} |"));
    println!();
    println!("|---|{}", "---:|".repeat(SHOWN.len()));
    for (name, counts) in KINDS.iter().zip(&tally) {
        print!("| {name:<13} |");
        SHOWN
            .iter()
            .for_each(|number| print!(" {:>6} |", counts[*number]));
        println!();
    }
    println!();
    all_came_up(&tally)
}

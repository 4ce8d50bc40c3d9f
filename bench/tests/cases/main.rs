//! The cases of document 01, and of document 02 stores of A7, fault counts of A9, indices of A4, seven levels and
//! conversions of A8, and transfers of A1, written out by hand: the peer answers them as the papers say, and so do the other
//! two.

mod blocks;
mod convert;
mod counts;
mod grid;
mod index;
mod index_wide;
mod levels;
mod pointer;
mod transfer;

use bench::contestant::{Archive, Contestant, Peer, Second};

/// Has a contestant answer all of them.
fn answers_the_cases<C: Contestant>() {
    pointer::pointer_cases::<C>();
    grid::grid_cases::<C>();
    grid::foreign_stores::<C>();
    counts::fault_counts::<C>();
    index::places::<C>();
    index::several::<C>();
    index::words::<C>();
    index::none::<C>();
    levels::depths::<C>();
    levels::foreign_stores::<C>();
    levels::lengths::<C>();
    index_wide::places::<C>();
    index_wide::several::<C>();
    index_wide::words::<C>();
    index_wide::none::<C>();
    convert::accepted::<C>();
    convert::numbers::<C>();
    convert::lengths::<C>();
    convert::counters::<C>();
    transfer::accepted::<C>();
    transfer::short::<C>();
    transfer::over::<C>();
    transfer::starts::<C>();
    transfer::numbers::<C>();
    transfer::outputs::<C>();
    transfer::contents::<C>();
}

#[test]
fn the_peer_answers_the_cases() {
    answers_the_cases::<Peer>();
}

#[test]
fn the_archive_answers_the_cases() {
    answers_the_cases::<Archive>();
}

#[test]
fn the_second_program_answers_the_cases() {
    answers_the_cases::<Second>();
}

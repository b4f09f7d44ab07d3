//! Makes random calls of our library and of generic-array, and compares the checksums of all that
//! they answered and dropped.
// Of a text of both sides, what only our side needs.
#![allow(irrefutable_let_patterns, unstable_name_collisions, unused_mut, unused_variables)]

// The texts of both sides name `generic_array`: here it is this crate, with our names.
extern crate generic_array as original;
extern crate self as generic_array;

pub(crate) use adapter::*;
use compare::Tally;
use original::typenum::{U4, U64};
use std::mem::size_of;
use std::process::ExitCode;

// They are safe in Rattle, but for the place that is written.
unsafe extern "C" {
    safe fn ours_size(which: u32) -> usize;
    fn ours_error_texts(out: *mut u8, len: usize) -> usize;
}

/// The size of ours where the original's is `size`: the count behind it takes 8 bytes, and the
/// whole is a multiple of 8.
fn with_count(size: usize) -> usize {
    (size + 8).next_multiple_of(8)
}

fn compare_sizes(tally: &mut Tally) {
    let small = size_of::<GenericArray<u8, U4>>();
    let long = size_of::<GenericArray<u64, U64>>();
    let rows = size_of::<GenericArray<GenericArray<u8, U4>, U4>>();
    let wanted = [
        (small, with_count(small)),
        (long, with_count(long)),
        (rows, with_count(4 * with_count(small))),
    ];
    for (which, (original, wanted)) in (0..).zip(wanted) {
        let wanted = Some(("size of an array", wanted));
        tally.compare_once("size of an array", ours_size(which), original, wanted);
    }
}

fn compare_texts(tally: &mut Tally) {
    let (length, memory) = (LengthError, AllocError);
    let original = format!("{length}|{length:?}|{memory}|{memory:?}");
    let mut out = [0; 300];
    // The place and the length are those of `out`.
    let len = unsafe { ours_error_texts(out.as_mut_ptr(), out.len()) };
    let ours = String::from_utf8_lossy(&out[..len]).into_owned();
    tally.compare_once("what errors print", ours, original, None);
}

fn main() -> ExitCode {
    asked::run(cases::CASES, |tally| {
        compare_texts(tally);
        compare_sizes(tally);
    })
}

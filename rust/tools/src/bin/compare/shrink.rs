//! A smaller call on which the two sides still disagree.

use std::time::{Duration, Instant};

use super::call::{Both, Call};

const LONGEST: Duration = Duration::from_secs(20);

fn disagrees(call: &Call) -> bool {
    !Both::of(call).agree(call)
}

/// Takes out ever shorter stretches of every slice, then makes words smaller, until nothing helps or time is up.
pub fn shrink(mut call: Call) -> Call {
    let end = Instant::now() + LONGEST;
    let mut before = usize::MAX;
    while size(&call) < before && Instant::now() < end {
        before = size(&call);
        for slice in 0..call.slices.len() {
            take_out(&mut call, slice, end);
            make_smaller(&mut call, slice, end);
        }
    }
    call
}

/// Counts words, and twice those that are not 0.
fn size(call: &Call) -> usize {
    call.slices.iter().flatten().map(|&word| if word == 0 { 1 } else { 2 }).sum()
}

fn take_out(call: &mut Call, slice: usize, end: Instant) {
    let length = call.slices[slice].len();
    let mut lengths: Vec<usize> = (0..usize::BITS)
        .map(|bit| length >> bit)
        .chain([16, 12, 10, 8, 6, 5, 4, 3, 2])
        .filter(|&length| length > 0)
        .collect();
    lengths.sort_unstable_by(|a, b| b.cmp(a));
    lengths.dedup();
    for stretch in lengths {
        take_out_stretches(call, slice, stretch, end);
    }
}

fn take_out_stretches(call: &mut Call, slice: usize, stretch: usize, end: Instant) {
    let mut place = 0;
    while place + stretch <= call.slices[slice].len() && Instant::now() < end {
        let mut smaller = call.clone();
        smaller.slices[slice].drain(place..place + stretch);
        if disagrees(&smaller) {
            *call = smaller;
        } else {
            place += 1.max(stretch / 2);
        }
    }
}

fn make_smaller(call: &mut Call, slice: usize, end: Instant) {
    let places = (0..call.slices[slice].len()).take_while(|_| Instant::now() < end);
    for place in places {
        if call.slices[slice][place] == 0 {
            continue;
        }
        let mut smaller = call.clone();
        smaller.slices[slice][place] = 0;
        if disagrees(&smaller) {
            *call = smaller;
        }
    }
}

//! Times: medians over rounds in which the sides take turns.

use std::time::Instant;

use super::figures::Figure;
use super::{buffers, groups, Group, SIDES};
use crate::second::Call;

/// The time for which a side is asked over and over in a round, in seconds.
const SLICE: f64 = 0.004;

/// Microseconds a call.
pub fn times(seed: u64, rounds: usize, calls: &[Call]) -> Vec<Figure> {
    groups(seed, calls).iter().map(|group| Figure::new(group, medians(rounds, group))).collect()
}

/// Each side's median over rounds.
fn medians(rounds: usize, group: &Group) -> [f64; SIDES] {
    let mut times = [const { Vec::new() }; SIDES];
    for round in 0..rounds {
        // Each side is first, second and last as often.
        for turn in 0..SIDES {
            let side = (round + turn) % SIDES;
            times[side].push(one(side, group));
        }
    }
    times.map(|mut times| {
        times.sort_by(f64::total_cmp);
        times[times.len() / 2]
    })
}

/// A call's time on average over the images, asked one after the other while a slice of time lasts.
fn one(side: usize, group: &Group) -> f64 {
    let (mut output, mut detail) = buffers();
    let (begun, mut calls) = (Instant::now(), 0);
    loop {
        group.ask(side, &mut output, &mut detail);
        calls += group.asked.len();
        let seconds = begun.elapsed().as_secs_f64();
        if seconds > SLICE {
            return seconds * 1e6 / calls as f64;
        }
    }
}

//! Medians of many repetitions, two sides taken in turn so that a busy machine slows both alike.

use std::time::Instant;

const SAMPLES: usize = 61;
const LEAST_SECONDS: f64 = 0.001;

/// Seconds a call, of so many calls.
fn seconds(calls: usize, work: &mut dyn FnMut()) -> f64 {
    let begin = Instant::now();
    for _ in 0..calls {
        work();
    }
    begin.elapsed().as_secs_f64() / calls as f64
}

/// How many calls one sample takes, so that it lasts long enough for the clock.
fn calls_a_sample(work: &mut dyn FnMut()) -> usize {
    let mut calls = 1;
    while seconds(calls, work) * (calls as f64) < LEAST_SECONDS {
        calls *= 2;
    }
    calls
}

fn median(mut samples: Vec<f64>) -> f64 {
    samples.sort_by(f64::total_cmp);
    samples[samples.len() / 2]
}

/// The median seconds a call of each of the two.
pub fn medians(one: &mut dyn FnMut(), other: &mut dyn FnMut()) -> [f64; 2] {
    let (one_calls, other_calls) = (calls_a_sample(one), calls_a_sample(other));
    let (mut ones, mut others) = (Vec::new(), Vec::new());
    for _ in 0..SAMPLES {
        ones.push(seconds(one_calls, one));
        others.push(seconds(other_calls, other));
    }
    [median(ones), median(others)]
}

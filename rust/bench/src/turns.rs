//! Calls timed in turns.

use std::hint::black_box;
use std::time::{Duration, Instant};

/// A multiple of two, three and four: of so many calls each is the first as often as the others.
pub const ROUNDS: usize = 12;
/// The inputs that are one turn of calls: so many that what ran before the turn hardly counts.
const TURN: usize = 100;

/// The time that the call takes for all of them.
pub fn timed<Input, Output>(inputs: &[Input], call: impl Fn(&Input) -> Output) -> Duration {
    let start = Instant::now();
    for input in inputs {
        black_box(call(black_box(input)));
    }
    start.elapsed()
}

fn median(times: impl Iterator<Item = Duration>) -> Duration {
    let mut times: Vec<Duration> = times.collect();
    times.sort();
    let middle = times.len() / 2;
    (times[middle - 1] + times[middle]) / 2
}

/// For each call the median of the rounds, turn by turn, in microseconds for each input. One round
/// before them is not counted. What times a turn is told its number, one more in each round.
pub fn medians<Input, const CALLS: usize>(
    inputs: &[Input],
    in_a_turn: usize,
    time_turn: impl Fn(&[Input], usize) -> [Duration; CALLS],
) -> [f64; CALLS] {
    let turns: Vec<&[Input]> = inputs.chunks(in_a_turn).collect();
    let round = |round: usize| -> Vec<[Duration; CALLS]> {
        let numbered = turns.iter().enumerate();
        numbered
            .map(|(number, turn)| time_turn(turn, number + round))
            .collect()
    };
    round(0);
    let rounds: Vec<Vec<[Duration; CALLS]>> = (0..ROUNDS).map(round).collect();
    std::array::from_fn(|call| {
        let of_turn = |turn: usize| median(rounds.iter().map(|times| times[turn][call]));
        let total: Duration = (0..turns.len()).map(of_turn).sum();
        total.as_secs_f64() * 1e6 / inputs.len() as f64
    })
}

/// The medians of calls that are given each turn one after the other, each being the first as often
/// as the others.
pub fn in_turns<Input, const CALLS: usize>(
    inputs: &[Input],
    calls: [&dyn Fn(&[Input]) -> Duration; CALLS],
) -> [f64; CALLS] {
    medians(inputs, TURN, |turn, number| {
        let mut times = [Duration::ZERO; CALLS];
        for call in (0..CALLS).map(|place| (place + number) % CALLS) {
            times[call] = calls[call](turn);
        }
        times
    })
}

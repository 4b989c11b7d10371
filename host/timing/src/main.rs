//! Times the model beside plain Rust, in one run, and prints the ratio of the best times.

mod digits;
mod messages;
mod model;
mod plain;
mod race;
mod streams;

fn main() {
    permutations();
    digits::time();
    messages::time();
    streams::time();
}

/// Times the three runs of the permutation, each call on what the last one left.
fn permutations() {
    for rounds in [6, 8, 12] {
        let by = |permute: fn(u64, &mut [u64; 5]) -> u64| {
            move |words: &mut [u64; 5]| assert_eq!(permute(rounds, words), rounds)
        };
        race::race(
            &format!("permutation, {rounds} rounds"),
            200_000,
            &[1, 2, 3, 4, 5],
            by(model::permute),
            by(plain::permute),
        );
    }
}

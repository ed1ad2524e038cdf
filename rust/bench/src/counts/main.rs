//! Measures how `crates/counts` counts what two keys begin with in common, by words and by single
//! bytes. Prints a table in Markdown. An argument is the number of rounds.
mod case;
// The files shared with `bench` have more in them than is used here.
#[allow(dead_code)]
#[path = "../inputs.rs"]
mod inputs;
#[allow(dead_code)]
#[path = "../lent.rs"]
mod lent;
#[path = "../rounds.rs"]
mod rounds;
#[allow(dead_code)]
#[path = "../timing.rs"]
mod timing;

use case::Case;
use inputs::Xorshift;
use std::process::ExitCode;

const SEED: u64 = 20_260_701;
const KEYS: [usize; 4] = [3, 8, 32, 64];

/// Where two keys of this length differ.
fn places(key: usize) -> [(&'static str, usize); 4] {
    [
        ("first", 0),
        ("middle", key / 2),
        ("last", key - 1),
        ("nowhere", key),
    ]
}

fn main() -> ExitCode {
    let Some(rounds) = rounds::rounds() else {
        eprintln!("usage: counts [ROUNDS]");
        return ExitCode::from(2);
    };
    let mut random = Xorshift::new(SEED);
    let mut cases = vec![];
    for key in KEYS {
        for (differ, place) in places(key) {
            cases.push(Case::new(&mut random, key, differ, place));
        }
    }
    for case in &mut cases {
        case.calibrate();
    }
    for round in 0..rounds {
        for case in &mut cases {
            case.sample(round);
        }
    }
    println!("| key bytes | differ | by words, ns | by bytes, ns | words/bytes |");
    println!("|---|---|---|---|---|");
    for case in &cases {
        case.print();
    }
    println!();
    println!("{rounds} rounds.");
    ExitCode::SUCCESS
}

//! Measures the library beside the reference and a floor; `docs/PERFORMANCE.md` says how, and what
//! came out. Prints ratios, no times. An argument is the number of rounds.
mod bucket_calls;
mod case;
mod floor;
mod index_calls;
mod inputs;
mod key_calls;
mod lent;
mod pair_calls;
mod placement;
mod report;
mod rounds;
mod sides;
mod table_calls;
mod timing;
mod wrong_counts;

use inputs::Xorshift;
use std::process::ExitCode;

const SEED: u64 = 20_260_701;

fn main() -> ExitCode {
    let Some(rounds) = rounds::rounds() else {
        eprintln!("usage: bench [ROUNDS]");
        return ExitCode::from(2);
    };
    placement::keep();
    let mut random = Xorshift::new(SEED);
    let mut cases = key_calls::cases(&mut random);
    cases.extend(pair_calls::cases(&mut random));
    cases.extend(table_calls::cases(&mut random));
    cases.extend(bucket_calls::cases(&mut random));
    cases.extend(table_calls::insertions(&mut random));
    cases.extend(table_calls::joins(&mut random));
    cases.extend(index_calls::cases(&mut random));
    let mut refused = wrong_counts::cases(&mut random);
    for case in cases.iter_mut().chain(&mut refused) {
        case.calibrate();
    }
    for round in 0..rounds {
        for case in cases.iter_mut().chain(&mut refused) {
            case.sample(round);
        }
    }
    report::print(&cases, &refused, rounds);
    ExitCode::SUCCESS
}

//! Runs the archive and the reference on the same cases. A line for each group of cases, then
//! 'N passed, M failed' over the groups; the status is 1 where one failed.
mod answers;
mod asked;
mod bucket_inputs;
mod buckets;
mod call;
mod command;
mod cuts;
mod dests;
mod group;
mod index;
mod inputs;
mod joining;
mod keys;
mod lengths;
mod lent;
mod lent_tables;
mod list;
mod list_inputs;
mod pair_inputs;
mod pairs;
mod parent_child;
mod random;
mod renaming;
mod run;
mod table_inputs;
mod tables;
mod told;
mod translation;
mod vectors;
mod wrapper;

use std::process::ExitCode;

fn main() -> ExitCode {
    let tests = [
        vectors::tests(),
        keys::tests(),
        tables::tests(),
        cuts::tests(),
        joining::tests(),
        translation::tests(),
        pairs::tests(),
        renaming::tests(),
        parent_child::tests(),
        buckets::tests(),
        index::tests(),
        list::tests(),
        command::tests(),
    ];
    let tests: Vec<_> = tests.into_iter().flatten().collect();
    let (mut passed, mut failed) = (0, 0);
    run::all(&tests, |line| {
        println!("{}", line.text);
        match line.passed {
            true => passed += 1,
            false => failed += 1,
        }
    });
    println!("{passed} passed, {failed} failed");
    ExitCode::from(u8::from(failed > 0))
}

//! The Rust of axdevice beside document 01 and beside the proved library.

mod cases;
mod findings;

use std::process::ExitCode;

use driver::{Plan, Sides};
use model::Model;
use oracle::Oracle;
use ours::Ours;

fn main() -> ExitCode {
    let mut words = std::env::args().skip(1);
    let command = words.next().unwrap_or_default();
    let plan = match Plan::from_words(words) {
        Ok(plan) => plan,
        Err(word) => {
            eprintln!("compare: not understood: {word}");
            return ExitCode::from(2);
        }
    };
    let fine = match command.as_str() {
        "run" => (!plan.wants("model") || with_the_model(&plan)) && (!plan.wants("ours") || with_ours(&plan)),
        "findings" => findings::all_as_noted(),
        "sample" => sampled(&plan),
        _ => {
            eprintln!("compare: run, findings or sample");
            return ExitCode::from(2);
        }
    };
    if fine { ExitCode::SUCCESS } else { ExitCode::FAILURE }
}

fn with_the_model(plan: &Plan) -> bool {
    plan.compare(Sides {
        left: ("the Rust", &mut Oracle),
        second: None,
        right: ("the model", &mut Model),
        lacks: |rule| ["first_bad_byte", "file"].contains(&rule).then_some("such rule in the Rust"),
    })
}

/// The model speaks where the Rust has no such input, as for odd widths.
fn with_ours(plan: &Plan) -> bool {
    plan.compare(Sides {
        left: ("the Rust", &mut Oracle),
        second: Some(("the model", &mut Model)),
        right: ("ours", &mut Ours),
        lacks: ours::lacks,
    })
}

/// To standard output.
fn sampled(plan: &Plan) -> bool {
    let bytes = driver::sample::file(&mut Oracle, plan.seed);
    match std::io::Write::write_all(&mut std::io::stdout(), &bytes) {
        Ok(()) => true,
        Err(why) => {
            eprintln!("compare: {why}");
            false
        }
    }
}

//! A comparison that notices nothing is worth nothing: every slip has to be noticed, by each rule named for it.

use std::{
    panic::{AssertUnwindSafe, catch_unwind},
    process::ExitCode,
};

use driver::{Duel, Plan, Rule, Shortened};
use model::Model;
use oracle::Oracle;
use ours::Ours;
use rules::Rules;

/// The model, or the wrappers of ours, with one slip.
struct Slip {
    name: &'static str,
    /// The rules that have to notice, by name; "/ours" where the Rust has no such input, and only the library can.
    rules: &'static str,
    ours: bool,
    side: Box<dyn Rules>,
}

// `fn all() -> Vec<Slip>`, from the files in edits.
include!(concat!(env!("OUT_DIR"), "/slips.rs"));

fn main() -> ExitCode {
    let plan = Plan { random: 20_000, every: 61, ..Plan::default() };
    // A slip may run past an array; the message would say nothing.
    std::panic::set_hook(Box::new(|_| {}));
    let (mut count, mut missed) = (0, 0);
    for mut slip in all() {
        for word in slip.rules.split_whitespace() {
            let (name, only) = word.split_once('/').unwrap_or((word, ""));
            if let Some(what) = ours::lacks(name).filter(|_| slip.ours) {
                println!("{:36}{name:18}not asked: there is no {what}", slip.name);
                continue;
            }
            let rule = plan.rules().find(|rule| rule.name == name).expect("a rule of that name");
            for beside in beside(&slip, name).iter().filter(|beside| only.is_empty() || **beside == Beside::Ours) {
                let how = noticed(&plan, rule, &mut slip, *beside);
                count += 1;
                missed += u32::from(how.is_none());
                let by = match beside {
                    Beside::Ours => "ours",
                    Beside::Rust if slip.ours => "both",
                    Beside::Rust => "the Rust",
                };
                println!("{:36}{name:18}{by:10}{}", slip.name, how.unwrap_or("NOT NOTICED".into()));
            }
        }
    }
    println!("{count} times a rule was to notice a slip, {missed} times it did not");
    if missed == 0 && count > 0 { ExitCode::SUCCESS } else { ExitCode::FAILURE }
}

/// Who stands beside a slip.
#[derive(Clone, Copy, PartialEq, Eq)]
enum Beside {
    /// And the model, as in compare/run, if the slip is in the wrappers of ours.
    Rust,
    /// Which answers all that the model does; a slip in the model only.
    Ours,
}

/// The Rust reads no files; on a bus the library tells more, and has to notice too.
fn beside(slip: &Slip, rule: &str) -> &'static [Beside] {
    match rule {
        "bus" if !slip.ours => &[Beside::Rust, Beside::Ours],
        "file" if !slip.ours => &[Beside::Ours],
        _ => &[Beside::Rust],
    }
}

fn noticed(plan: &Plan, rule: &Rule, slip: &mut Slip, beside: Beside) -> Option<String> {
    let (mut oracle, mut model, mut ours) = (Oracle, Model, Ours);
    let left: &mut dyn Rules = if beside == Beside::Ours { &mut ours } else { &mut oracle };
    let second: Option<&mut dyn Rules> = if slip.ours { Some(&mut model) } else { None };
    let mut duel = Duel::new(left, slip.side.as_mut(), plan.every, "").or_ask(second);
    // The library copies a bus often, so that to make a history small takes long.
    duel.shrinks = !["bus", "file"].contains(&rule.name);
    let run = catch_unwind(AssertUnwindSafe(|| plan.run(rule, &mut duel)));
    let at = duel.asked + duel.by_second;
    match run {
        Ok(Ok(())) => None,
        Ok(Err(_)) if !duel.shrinks => Some(format!("input {at}")),
        Ok(Err(difference)) => Some(format!("input {at}, smallest {}", difference.question.shortened())),
        Err(_) => Some(format!("input {at}, by a panic")),
    }
}

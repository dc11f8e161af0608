//! How often each kind of answer was given: inputs that all end the same way show little.

use std::{collections::BTreeMap, fmt};

use rules::{Answer, BarWrite, Reply, Touch};

#[derive(Default)]
pub struct Tally(BTreeMap<&'static str, u64>);

impl Tally {
    pub fn count(&mut self, reply: &Reply) {
        match reply {
            Reply::Story(story) => story.answers.iter().for_each(|answer| self.add(answer_kind(answer))),
            other => self.add(kind(other)),
        }
    }

    fn add(&mut self, kind: &'static str) {
        *self.0.entry(kind).or_default() += 1;
    }
}

fn kind(reply: &Reply) -> &'static str {
    match reply {
        Reply::Yes(true) => "passes",
        Reply::Yes(false) => "refused",
        Reply::BarWrite(BarWrite::Probe) => "probe",
        Reply::BarWrite(BarWrite::Relocate(_)) => "relocate",
        Reply::FirstBad(None) => "all pass",
        Reply::FirstBad(Some(0)) => "refused at the first",
        Reply::FirstBad(Some(_)) => "refused at a later one",
        Reply::Layout(Ok(_)) => "laid out",
        Reply::Layout(Err(refusal)) => number(refusal.number),
        Reply::Touch(Touch::Untouched) => "untouched",
        Reply::Touch(Touch::Inside(_)) => "inside",
        Reply::Touch(Touch::Refused) => "19",
        Reply::Place(Ok(_)) => "placed",
        Reply::Place(Err(refusal)) => number(refusal.number),
        Reply::File(Ok(_)) => "started",
        Reply::File(Err(refusal)) => number(refusal.number),
        Reply::Dword(_) | Reply::Modes(_) | Reply::View(_) | Reply::Image(_) | Reply::Story(_) => "given",
    }
}

fn answer_kind(answer: &Answer) -> &'static str {
    match answer {
        Answer::Refused(refusal) => number(*refusal),
        Answer::Value(_) => "read",
        Answer::Inside(_) => "inside",
        Answer::Done => "done",
        Answer::Dropped => "dropped",
        Answer::Written => "written",
        Answer::Probing { .. } => "probing",
        Answer::Moved { .. } => "moved",
        Answer::Kept { .. } | Answer::Stayed { .. } => "kept",
        Answer::ResetAtLargest { .. } => "20 by reset",
        Answer::Hit { .. } => "hit",
        Answer::Miss => "miss",
    }
}

fn number(refusal: u8) -> &'static str {
    const NUMBERS: [&str; 21] = [
        "0", "1", "2", "3", "4", "5", "6", "7", "8", "9", "10", "11", "12", "13", "14", "15", "16", "17", "18", "19",
        "20",
    ];
    NUMBERS[usize::from(refusal)]
}

impl fmt::Display for Tally {
    fn fmt(&self, to: &mut fmt::Formatter<'_>) -> fmt::Result {
        let told: Vec<String> = self.0.iter().map(|(kind, count)| format!("{kind}: {count}")).collect();
        to.write_str(&told.join(", "))
    }
}

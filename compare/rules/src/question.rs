//! A call of a rule as a value, so that it can be made, shrunk and shown; and what came back.

use crate::{answer::*, data::*, side::*};

/// A call of one method of `Rules`.
#[derive(Clone, Debug, PartialEq, Eq)]
pub enum Question {
    Check { offset: u32, width: u32 },
    SizeOk { size: u64 },
    SizeMask { size: u64 },
    Shown { bar: BarNow },
    BarWrite { bar: BarNow, lane: u8, width: u8, value: u64 },
    BodyOk { length: u32 },
    FirstBadEffect { mask: Vec<u8>, effects: Vec<Effect> },
    Layout { capabilities: Vec<Capability> },
    EffectFor { capabilities: Vec<Capability>, offset: u16, width: u8, write: bool },
    Modes { capabilities: Vec<Capability> },
    View { capabilities: Vec<Capability>, index: usize, image: Vec<u8> },
    Place { aperture: Aperture, wishes: Vec<Wish> },
    FirstBadByte { function: Function },
    PowerOn { function: Function },
    Function { function: Function, now: Vec<Now>, revision: u64, ops: Vec<Op> },
    Bus { aperture: Aperture, cards: Vec<Card>, ops: Vec<BusOp> },
    File { bytes: Vec<u8> },
}

#[derive(Debug, PartialEq, Eq)]
pub enum Reply {
    Yes(bool),
    Dword(u32),
    BarWrite(BarWrite),
    FirstBad(Option<usize>),
    Layout(Result<Vec<u8>, LayoutRefusal>),
    Touch(Touch),
    Modes(Box<[Mode; 256]>),
    View(Option<Vec<u8>>),
    Place(Result<Vec<u64>, PlaceRefusal>),
    Image(Box<Image>),
    Story(Story),
    File(Result<Started, FileRefusal>),
}

/// Puts the question to one side.
pub fn ask(side: &mut dyn Rules, question: &Question) -> Asked<Reply> {
    use Question as Q;
    Some(match question {
        Q::Check { offset, width } => Reply::Yes(side.check(*offset, *width)?),
        Q::SizeOk { size } => Reply::Yes(side.size_ok(*size)?),
        Q::SizeMask { size } => Reply::Dword(side.size_mask(*size)?),
        Q::Shown { bar } => Reply::Dword(side.shown(*bar)?),
        Q::BarWrite { bar, lane, width, value } => Reply::BarWrite(side.bar_write(*bar, *lane, *width, *value)?),
        Q::BodyOk { length } => Reply::Yes(side.body_ok(*length)?),
        Q::FirstBadEffect { mask, effects } => Reply::FirstBad(side.first_bad_effect(mask, effects)?),
        Q::Layout { capabilities } => Reply::Layout(side.layout(capabilities)?),
        Q::EffectFor { capabilities, offset, width, write } => {
            Reply::Touch(side.effect_for(capabilities, *offset, *width, *write)?)
        }
        Q::Modes { capabilities } => Reply::Modes(Box::new(side.modes(capabilities)?)),
        Q::View { capabilities, index, image } => Reply::View(side.view(capabilities, *index, image)?),
        Q::Place { aperture, wishes } => Reply::Place(side.place(*aperture, wishes)?),
        Q::FirstBadByte { function } => Reply::FirstBad(side.first_bad_byte(function)?),
        Q::PowerOn { function } => Reply::Image(Box::new(side.power_on(function)?)),
        Q::Function { function, now, revision, ops } => Reply::Story(side.function(function, now, *revision, ops)?),
        Q::Bus { aperture, cards, ops } => Reply::Story(side.bus(*aperture, cards, ops)?),
        Q::File { bytes } => Reply::File(side.file(bytes)?),
    })
}

/// Equal, but that `Written` leaves open which of five it was, and that the left side may not tell what came after a step.
pub fn agree(left: &Reply, right: &Reply) -> bool {
    let (Reply::Story(left), Reply::Story(right)) = (left, right) else { return left == right };
    let written = |answer: &Answer| {
        use Answer::*;
        matches!(answer, Done | Dropped | Probing { .. } | Moved { .. } | Stayed { .. })
    };
    let same = |(left, right): (&Answer, &Answer)| left == right || *left == Answer::Written && written(right);
    left.ends == right.ends
        && (left.after.is_none() || left.after == right.after)
        && left.answers.len() == right.answers.len()
        && left.answers.iter().zip(&right.answers).all(same)
}

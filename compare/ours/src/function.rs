//! One function: the power-on image, and steps on it.

use library::{BODY_SPACE, BarState, Bars, CONFIG_BYTES, ContentsNumbers, FunctionState, HEADER, Plan, SPACE, Slot};
use rules::{Answer, Bar, End, Function, Image, Now, Op, Story};

use super::{
    capability::{placed, spread, touched},
    register::dword,
};

fn identity(it: &rules::Identity) -> library::Identity {
    library::Identity {
        vendor: it.vendor,
        device: it.device_id,
        subsystem_vendor: it.subsystem_vendor,
        subsystem: it.subsystem_id,
        revision: it.revision,
        base_class: it.base_class,
        subclass: it.subclass,
        programming_interface: it.interface,
    }
}

/// The part of config space that bodies and masks can lie in.
fn behind_the_header(bytes: [u8; SPACE]) -> [u8; BODY_SPACE] {
    std::array::from_fn(|at| bytes[HEADER + at])
}

fn contents(function: &Function, placed: &library::Placed) -> Option<ContentsNumbers> {
    let mut bytes = [library::ConfigByte::default(); CONFIG_BYTES];
    for (to, from) in bytes.get_mut(..function.config_bytes.len())?.iter_mut().zip(&function.config_bytes) {
        let offset = library::ConfigOffset(from.offset.into());
        *to = library::ConfigByte { offset, value: from.value, mask: from.mask };
    }
    Some(ContentsNumbers {
        identity: identity(&function.identity),
        has_intx: function.intx.is_some(),
        pin: function.intx.map_or(0, |intx| intx.pin),
        line: function.intx.map_or(0, |intx| intx.line),
        bytes,
        byte_count: function.config_bytes.len(),
        bodies: behind_the_header(spread(placed, &function.capabilities, |it| &it.body)),
        masks: behind_the_header(spread(placed, &function.capabilities, |it| &it.mask)),
    })
}

/// Each slot has its number, also where it has no BAR.
fn bars(bars: &[Bar]) -> Option<Bars> {
    let mut out = Bars::default();
    for (slot, bar) in out.bars.iter_mut().enumerate() {
        bar.plan.slot = Slot(slot as u8);
    }
    for bar in bars {
        let address = bar.address.into();
        let plan = Plan { slot: Slot(bar.slot), size: bar.size, address };
        *out.bars.get_mut(usize::from(bar.slot))? = BarState { plan, address, probing: false };
    }
    Some(out)
}

pub fn first_bad_byte(function: &Function) -> Option<Option<usize>> {
    let placed = placed(&function.capabilities)?;
    let out = library::config_bytes(contents(function, &placed)?, placed)?;
    Some(if super::passes(out.refusal, 9)? { None } else { Some(out.index) })
}

pub fn power_on(function: &Function) -> Option<Image> {
    let placed = placed(&function.capabilities)?;
    let out = library::power_on(contents(function, &placed)?, bars(&function.bars)?, placed)?;
    Some(Image { bytes: out.image, masks: out.mask })
}

fn start(function: &Function, revision: u64) -> Option<FunctionState> {
    let placed = placed(&function.capabilities)?;
    let bars = bars(&function.bars)?;
    let power_on = library::power_on(contents(function, &placed)?, bars, placed)?;
    Some(FunctionState { revision, ..library::start(power_on, bars, placed)? })
}

pub fn story(function: &Function, now: &[Now], revision: u64, ops: &[Op]) -> Option<Story> {
    let mut state = start(function, revision)?;
    for now in now {
        let bar = state.bars.get_mut(usize::from(now.slot))?;
        (bar.address, bar.probing) = (now.address.into(), now.probing);
    }
    let answers = ops.iter().map(|op| step(&mut state, *op)).collect::<Option<_>>()?;
    Some(Story { answers, ends: vec![end(state)?], after: None })
}

fn step(state: &mut FunctionState, op: Op) -> Option<Answer> {
    match op {
        Op::Read { offset, width } => read(*state, offset, width),
        Op::Write { offset, width, value, accept } => write(state, offset, width, value, accept),
        Op::Reset => {
            let out = library::reset(*state)?;
            *state = out.state;
            Some(if out.refusal == 0 { Answer::Done } else { Answer::ResetAtLargest { device: 0 } })
        }
    }
}

fn read(state: FunctionState, offset: u16, width: u8) -> Option<Answer> {
    let out = library::read(state, offset.into(), width.into())?;
    Some(match (out.refusal, out.inside) {
        (0, false) => Answer::Value(dword(out.value)?),
        (0, true) => Answer::Inside(touched(out.capability_id, out.region, out.offset, out.region_offset, &out.body)?),
        (number, _) => Answer::Refused(number),
    })
}

/// A candidate is answered as the question says, in a second step.
fn write(state: &mut FunctionState, offset: u16, width: u8, value: u64, accept: bool) -> Option<Answer> {
    let out = library::write(*state, offset.into(), width.into(), value)?;
    *state = out.state;
    if out.refusal != 0 {
        return Some(Answer::Refused(out.refusal));
    }
    let slot = u8::try_from(out.slot).ok()?;
    Some(match out.kind {
        0 => Answer::Done,
        1 => Answer::Probing { slot },
        2 => {
            *state = library::finish(*state, slot, accept, out.address)?;
            let candidate = dword(out.address)?;
            if accept { Answer::Moved { slot, address: candidate } } else { Answer::Kept { slot, candidate } }
        }
        3 => Answer::Inside(touched(out.capability_id, out.region, out.offset, out.region_offset, &out.body)?),
        _ => return None,
    })
}

fn end(state: FunctionState) -> Option<End> {
    let mut shown = [0; SPACE];
    for (offset, byte) in shown.iter_mut().enumerate() {
        if let Answer::Value(value) = read(state, offset as u16, 1)? {
            *byte = u8::try_from(value).ok()?;
        }
    }
    let command = u16::from_le_bytes([state.live[4], state.live[5]]);
    Some(End {
        shown,
        addresses: state.bars.map(|bar| (bar.plan.size != 0).then_some(bar.address)),
        revision: state.revision,
        command: [1, 2, 10].map(|bit| command >> bit & 1 == 1),
    })
}

//! config.rs: the power-on image, and steps on one function.

use rules::{Answer, Bar, Capability, End, Function, Image, Now, Op, Story, Touch, Touched};

use super::{address, bar, capability};
use crate::{
    AccessWidth, ConfigOffset,
    pci::{
        PciBdf, PciEndpointIdentity, ResolvedPciIntx,
        bar::ResolvedBarPlan,
        config::{BarWriteAction, FunctionState, PowerOnConfig},
        function::{PciClass, PciConfigByte},
        intx::PciIntxPin,
        runtime,
    },
};

pub(super) fn identity(function: &Function) -> PciEndpointIdentity {
    let it = function.identity;
    let class = PciClass::new(it.base_class, it.subclass, it.interface);
    PciEndpointIdentity::new(it.vendor, it.device_id, class)
        .with_revision(it.revision)
        .with_subsystem_ids(it.subsystem_vendor, it.subsystem_id)
}

pub(super) fn config_bytes(function: &Function) -> Vec<PciConfigByte> {
    let byte = |byte: &rules::ConfigByte| PciConfigByte {
        offset: ConfigOffset::new(byte.offset.into()).expect("below 256"),
        value: byte.value,
        write_mask: byte.mask,
    };
    function.config_bytes.iter().map(byte).collect()
}

/// Outer None: a pin that document 01 refuses; the stand-in takes any.
pub(super) fn intx(function: &Function) -> Option<Option<ResolvedPciIntx>> {
    let Some(intx) = function.intx else { return Some(None) };
    (1..=4).contains(&intx.pin).then_some(Some(ResolvedPciIntx { pin: PciIntxPin(intx.pin), line: intx.line }))
}

/// Config bytes where 9 allows them, slots used once: what comes before is not config.rs's to refuse.
pub(super) fn declarable(function: &Function) -> Option<()> {
    let layouts = capability::layouts(&function.capabilities)?;
    let inside = |offset: u8| {
        let offset = ConfigOffset::new(offset.into()).expect("below 256");
        layouts.iter().any(|layout| layout.byte_mode(offset).is_some())
    };
    let allowed = |offset: u8| [0x0c, 0x0d, 0x3c].contains(&offset) || (offset >= 0x40 && !inside(offset));
    let bytes = function.config_bytes.iter().all(|byte| allowed(byte.offset));
    let slots =
        (1..function.bars.len()).all(|at| function.bars[..at].iter().all(|bar| bar.slot != function.bars[at].slot));
    (bytes && slots).then_some(())
}

fn plans(bars: &[Bar]) -> Option<Vec<ResolvedBarPlan>> {
    bars.iter().copied().map(bar::plan).collect()
}

fn build(function: &Function, plans: &[ResolvedBarPlan]) -> Option<PowerOnConfig> {
    declarable(function)?;
    let layouts = capability::layouts(&function.capabilities)?;
    PowerOnConfig::build(identity(function), plans, &config_bytes(function), &layouts, intx(function)?).ok()
}

pub(super) fn with_one_bar(plan: ResolvedBarPlan) -> FunctionState {
    let identity = identity(&Function::default());
    let power_on = PowerOnConfig::build(identity, &[plan], &[], &[], None).expect("a plain function");
    FunctionState::new(PciBdf::bus_zero(0), power_on, &[plan], false)
}

/// Image and masks are private: a state without BARs shows every byte and tells the mask by two writes.
pub(super) fn power_on(function: &Function) -> Option<Image> {
    let power_on = build(function, &plans(&function.bars)?)?;
    let mut state = FunctionState::new(PciBdf::bus_zero(0), power_on, &[], false);
    let mut image = Image { bytes: [0; 256], masks: [0; 256] };
    for offset in 0..256 {
        image.bytes[offset] = state.read(offset, 1) as u8;
        state.write_non_bar(offset, 1, 0xff);
        let ones = state.read(offset, 1) as u8;
        state.write_non_bar(offset, 1, 0);
        image.masks[offset] = ones & !(state.read(offset, 1) as u8);
    }
    Some(image)
}

pub(super) fn effect_for(capabilities: &[Capability], offset: u16, width: u8, write: bool) -> Option<Touch> {
    let width = AccessWidth::of(width.into())?;
    let (offset, size) = address::access(offset, width)?;
    let power_on = build(&Function { capabilities: capabilities.to_vec(), ..Function::default() }, &[])?;
    let state = FunctionState::new(PciBdf::bus_zero(0), power_on, &[], false);
    Some(touch(&state, offset, size, width, write))
}

fn touch(state: &FunctionState, offset: usize, size: usize, width: AccessWidth, write: bool) -> Touch {
    match state.config_effect(offset, size, width, write) {
        Err(_) => Touch::Refused,
        Ok(None) => Touch::Untouched,
        Ok(Some((capability, region, offset, body))) => Touch::Inside(Touched {
            capability: capability.value(),
            effect: region.effect().value(),
            region: (region.offset(), region.length()),
            offset,
            region_offset: offset - region.offset(),
            body: body.bytes().to_vec(),
        }),
    }
}

pub(super) fn story(function: &Function, now: &[Now], revision: u64, ops: &[Op]) -> Option<Story> {
    let plans = plans(&function.bars)?;
    let power_on = build(function, &plans)?;
    runtime::start_at([revision]);
    let mut state = FunctionState::new(PciBdf::bus_zero(0), power_on, &plans, function.intx.is_some());
    now.iter().try_for_each(|now| begin(&mut state, function, *now))?;
    let answers = ops.iter().map(|op| step(&mut state, *op)).collect::<Option<_>>()?;
    Some(Story { answers, ends: vec![end(&state)?], after: None })
}

/// Moves a BAR and lets it probe, as accepted writes would; none if there is no such BAR, or it could not lie there.
fn begin(state: &mut FunctionState, function: &Function, now: Now) -> Option<()> {
    let size = function.bars.iter().find(|bar| bar.slot == now.slot)?.size;
    let bar = state.bars().iter().position(|bar| bar.index().value() == now.slot)?;
    u64::from(now.address).is_multiple_of(size).then_some(())?;
    state.finish_relocation(bar, Some(now.address.into()));
    if now.probing {
        state.apply_probe(bar);
    }
    Some(())
}

/// In the order of `PciRootState::prepare_read_config` and `prepare_write_config`.
fn step(state: &mut FunctionState, op: Op) -> Option<Answer> {
    let (offset, width) = match op {
        Op::Reset => {
            return Some(match state.reset() {
                Ok(()) => Answer::Done,
                Err(_) => Answer::ResetAtLargest { device: 0 },
            });
        }
        Op::Read { offset, width } | Op::Write { offset, width, .. } => (offset, AccessWidth::of(width.into())?),
    };
    let Some((offset, size)) = address::access(offset, width) else {
        return Some(Answer::Refused(18));
    };
    match touch(state, offset, size, width, matches!(op, Op::Write { .. })) {
        Touch::Refused => return Some(Answer::Refused(19)),
        Touch::Inside(touched) => return Some(Answer::Inside(touched)),
        Touch::Untouched => {}
    }
    let Op::Write { value, accept, .. } = op else {
        return Some(Answer::Value(state.read(offset, size) as u32));
    };
    Some(match state.prepare_bar_write(offset, size, value) {
        Some(BarWriteAction::Probe { bar }) => {
            state.apply_probe(bar);
            Answer::Probing { slot: state.bars()[bar].index().value() }
        }
        Some(BarWriteAction::Relocate { bar, candidate }) => {
            state.finish_relocation(bar, accept.then_some(candidate));
            let slot = state.bars()[bar].index().value();
            let candidate = candidate as u32;
            if accept { Answer::Moved { slot, address: candidate } } else { Answer::Kept { slot, candidate } }
        }
        None => store(state, offset, size, value),
    })
}

fn store(state: &mut FunctionState, offset: usize, size: usize, value: u64) -> Answer {
    let changes = state.command_write_changes(offset, size, value);
    if changes && state.bump_command_revision().is_err() {
        return Answer::Refused(20);
    }
    state.write_non_bar(offset, size, value);
    Answer::Done
}

fn end(state: &FunctionState) -> Option<End> {
    let untouched = |offset, width: AccessWidth| touch(state, offset, width.size(), width, false) == Touch::Untouched;
    let mut shown = [0; 256];
    for (dword, bytes) in shown.chunks_mut(4).enumerate() {
        let offset = 4 * dword;
        if untouched(offset, AccessWidth::Dword) {
            bytes.copy_from_slice(&(state.read(offset, 4) as u32).to_le_bytes());
            continue;
        }
        for (lane, byte) in bytes.iter_mut().enumerate().filter(|(lane, _)| untouched(offset + lane, AccessWidth::Byte))
        {
            *byte = state.read(offset + lane, 1) as u8;
        }
    }
    let mut addresses = [None; 6];
    for bar in state.bars() {
        addresses[usize::from(bar.index().value())] = Some(bar.range()?.start);
    }
    let command = state.command_state();
    Some(End {
        shown,
        addresses,
        revision: command.revision().0,
        command: [command.memory_space_enable, command.bus_master_enable(), command.interrupt_disable()],
    })
}

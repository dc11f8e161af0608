//! bar.rs: sizes, the register, and what a write to it means.

use rules::{Bar, BarNow, BarWrite};

use super::function;
use crate::{
    AccessWidth,
    pci::{
        PciBarIndex, PciMemoryBar,
        bar::{BarState, ResolvedBarPlan},
        config::BarWriteAction,
        config_layout::CONFIG_BAR_START,
    },
};

pub(super) fn size_ok(size: u64) -> bool {
    let index = PciBarIndex::new(0).expect("slot 0");
    PciMemoryBar::new(index, size).is_ok()
}

/// A slot above 5 or a size that 7 refuses cannot be planned.
pub(super) fn plan(bar: Bar) -> Option<ResolvedBarPlan> {
    let index = PciBarIndex::new(bar.slot).ok()?;
    let size = PciMemoryBar::new(index, bar.size).ok()?.size();
    Some(ResolvedBarPlan { index, size, address: bar.address.into() })
}

pub(super) fn shown(bar: BarNow) -> Option<u32> {
    let mut state = BarState::new(plan(Bar { slot: 0, size: bar.size, address: bar.address })?);
    if bar.probing {
        state.set_probe();
    }
    Some(state.raw_dword())
}

/// The Rust classifies a write in config.rs, over a function with this one BAR.
pub(super) fn write(bar: BarNow, lane: u8, width: u8, value: u64) -> Option<BarWrite> {
    if lane > 3 {
        return None;
    }
    let offset = CONFIG_BAR_START as u16 + u16::from(lane);
    let (offset, size) = super::address::access(offset, AccessWidth::of(width.into())?)?;
    let mut state = function::with_one_bar(plan(Bar { slot: 0, size: bar.size, address: bar.address })?);
    if bar.probing {
        state.apply_probe(0);
    }
    Some(match state.prepare_bar_write(offset, size, value)? {
        BarWriteAction::Probe { .. } => BarWrite::Probe,
        BarWriteAction::Relocate { candidate, .. } => BarWrite::Relocate(candidate as u32),
    })
}

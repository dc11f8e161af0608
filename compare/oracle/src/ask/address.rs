//! address.rs: the access check.

use crate::{AccessWidth, ConfigOffset};

/// An offset above 16 bits or a width other than 1, 2, 4, 8 cannot be said in the Rust.
pub(super) fn check(offset: u32, width: u32) -> Option<bool> {
    let offset = u16::try_from(offset).ok()?;
    let width = AccessWidth::of(width)?;
    Some(access(offset, width).is_some())
}

/// Offset and size as the other files take them; None is 18.
pub(super) fn access(offset: u16, width: AccessWidth) -> Option<(usize, usize)> {
    ConfigOffset::new(offset).ok()?.validate_access(width).ok()
}

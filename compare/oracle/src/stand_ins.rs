//! Stand-ins for what the files take from the root of axdevice, from ax_sync and from axdevice_base.

use core::{
    cell::{RefCell, RefMut},
    fmt,
};

#[derive(Clone, Copy, Debug, Eq, PartialEq)]
pub enum AccessWidth {
    Byte,
    Word,
    Dword,
    Qword,
}

impl AccessWidth {
    /// None: the Rust has no such width.
    pub(crate) fn of(bytes: u32) -> Option<Self> {
        Some(match bytes {
            1 => Self::Byte,
            2 => Self::Word,
            4 => Self::Dword,
            8 => Self::Qword,
            _ => return None,
        })
    }

    pub const fn size(self) -> usize {
        1 << self as usize
    }
}

#[derive(Clone, Copy, Debug, Eq, PartialEq)]
pub enum ResourceRequest<T> {
    Auto,
    Fixed(T),
}

/// A node of the device graph; here the device number, so that its order is document 01's.
#[derive(Clone, Debug, Eq, Ord, PartialEq, PartialOrd)]
pub struct DeviceNodeId(pub(crate) u8);

impl fmt::Display for DeviceNodeId {
    fn fmt(&self, to: &mut fmt::Formatter<'_>) -> fmt::Result {
        self.0.fmt(to)
    }
}

#[derive(Clone, Copy, Debug, Eq, PartialEq)]
pub struct DeviceId(pub(crate) u8);

/// One thread asks, so nothing is locked.
pub struct SpinLock<T>(RefCell<T>);

impl<T> SpinLock<T> {
    pub const fn new(value: T) -> Self {
        Self(RefCell::new(value))
    }

    pub fn lock_irqsave(&self) -> RefMut<'_, T> {
        self.0.borrow_mut()
    }
}

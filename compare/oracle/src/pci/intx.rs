//! Stand-in for intx.rs: pin and line as document 01 encodes them.

#[derive(Clone, Copy, Debug)]
pub(crate) struct PciIntxRequirement;

#[derive(Clone, Copy, Debug)]
pub(crate) struct PciIntxPin(pub(crate) u8);

impl PciIntxPin {
    pub(crate) const fn config_encoding(self) -> u8 {
        self.0
    }
}

#[derive(Clone, Copy, Debug)]
pub struct ResolvedPciIntx {
    pub(crate) pin: PciIntxPin,
    pub(crate) line: u8,
}

impl ResolvedPciIntx {
    pub(crate) const fn guest_line_byte(self) -> u8 {
        self.line
    }

    pub(crate) const fn pin(self) -> PciIntxPin {
        self.pin
    }
}

"""Deliberate slips between the library and Linux; each has to be noticed."""
import cases
from boot import Slip
from declaration import Bar, Declaration, Function


class Byte(Slip):
    """One byte of device 0's config space reads otherwise, at every width."""

    def __init__(self, name, offset, change):
        self.name, self.offset, self.change = name, offset, change

    def read(self, device, offset, width, value):
        lane = self.offset - offset
        if device or not 0 <= lane < width:
            return value
        byte = value >> 8 * lane & 0xFF
        return value ^ (byte ^ self.change(byte)) << 8 * lane


class Lost(Slip):
    """A write to a register of device 0 is lost, if it is of this kind."""

    def __init__(self, name, offset, which=lambda value: True):
        self.name, self.offset, self.which = name, offset, which

    def write(self, device, offset, width, value):
        return None if device == 0 and offset == self.offset and self.which(value) else value


class Hit(Slip):
    """A lookup answers with another place."""

    def __init__(self, name, change):
        self.name, self.change = name, change

    def hit(self, device, slot, offset):
        return self.change(device, slot, offset)


class NoReset(Slip):
    name = "a reset that does nothing"

    def reset(self, bus):
        return None


def declaration():
    """Two functions; the first has a BAR of 4 KiB in slot 0, three capabilities and a config byte at 0xe0."""
    first = Function(0, intx=(1, 11), bars=[Bar(0, 4096), Bar(1, 64), Bar(2, 64)], bytes=[(0xE0, 0xA5, 0)],
                     capabilities=[cases.msi(), cases.power_management(), cases.vendor()])
    second = Function(1, bars=[Bar(0, 64)], capabilities=[cases.msi()])
    return Declaration([first, second])


def every():
    yield Byte("device id", 0x02, lambda b: b ^ 1)
    yield Byte("revision", 0x08, lambda b: b ^ 1)
    yield Byte("class", 0x0B, lambda b: b ^ 1)
    yield Byte("subsystem id", 0x2E, lambda b: b ^ 1)
    yield Byte("pin", 0x3D, lambda b: 0)
    yield Byte("status without a capability list", 0x06, lambda b: b & ~0x10)
    yield Byte("a chain that ends early", 0x41, lambda b: 0)
    yield Byte("a byte of the vendor capability", 0x5A, lambda b: b ^ 0x80)
    yield Byte("a config byte", 0xE0, lambda b: b ^ 4)
    yield Byte("a mask of twice the size", 0x11, lambda b: b & 0xE0 if b == 0xF0 else b)
    yield Byte("an address off by 4 KiB", 0x11, lambda b: b ^ 0x10 if b != 0xF0 else b)
    yield Lost("an address write that is lost", 0x10, lambda value: value != 0xFFFFFFFF)
    yield Lost("a probe that is lost", 0x14, lambda value: value == 0xFFFFFFFF)
    yield Lost("an enable that is lost", 0x04)
    yield Hit("a lookup one slot off", lambda d, s, o: (d, s ^ 3, o) if s in (1, 2) else (d, s, o))
    yield Hit("a lookup in the other function", lambda d, s, o: (1 - d, s, o) if s == 0 else (d, s, o))
    yield Hit("a lookup a dword off", lambda d, s, o: (d, s, o ^ 4))
    yield NoReset()

"""The product through its C boundary (include/voussglen.h). Nothing here answers a question; the library does."""
import ctypes
import re
from ctypes import Structure, c_bool, c_size_t, c_uint8, c_uint16, c_uint64
from pathlib import Path

REFUSED, VALUE, STORED, DROPPED, PROBING, MOVED, KEPT, EFFECT, HIT, MISS = range(10)
BUS, SLOTS, CAPABILITIES, LONGEST_BODY = 10592, 6, 16, 253
ABSENT = 255                                      # a device number that no declaration has


def struct(name, *fields):
    return type(name, (Structure,), {"_fields_": list(fields)})


Snapshot = struct("vg_snapshot", ("length", c_uint8), ("bytes", c_uint8 * LONGEST_BODY))
Region = struct("vg_placed_effect", ("id", c_uint16), ("capability", c_uint8), ("offset", c_uint8), ("length", c_uint8),
                ("access", c_uint8))
Told = struct("vg_effect_told", ("capability_id", c_uint8), ("region", Region), ("offset", c_uint16),
              ("region_offset", c_uint16))
ReadAsk = struct("vg_read_ask", ("device", c_size_t), ("offset", c_size_t), ("width", c_size_t))
ReadResult = struct("vg_read_result", ("kind", c_uint8), ("refusal", c_uint8), ("value", c_uint64), ("effect", Told))
WriteAsk = struct("vg_write_ask", ("device", c_size_t), ("offset", c_size_t), ("width", c_size_t), ("value", c_uint64))
WriteResult = struct("vg_write_result", ("kind", c_uint8), ("refusal", c_uint8), ("device", c_uint8), ("slot", c_size_t),
                     ("address", c_uint64), ("effect", Told))
LookupAsk = struct("vg_lookup_ask", ("address", c_uint64), ("width", c_size_t))
LookupResult = struct("vg_lookup_result", ("kind", c_uint8), ("refusal", c_uint8), ("device", c_uint8), ("slot", c_size_t),
                      ("offset", c_uint64))
ResetResult = struct("vg_reset_result", ("refusal", c_uint8), ("device", c_uint8))
StartResult = struct("vg_start_result", ("refusal", c_uint8), ("in_file", c_bool), ("device", c_uint8), ("offset", c_size_t),
                     ("index", c_size_t))
Identity = struct("vg_identity", ("vendor", c_uint16), ("device", c_uint16), ("subsystem_vendor", c_uint16),
                  ("subsystem", c_uint16), ("revision", c_uint8), ("base_class", c_uint8), ("subclass", c_uint8),
                  ("programming_interface", c_uint8))
SlotReport = struct("vg_slot_report", ("size", c_uint64), ("address", c_uint64))
Listed = struct("vg_listed", ("offset", c_uint8), ("id", c_uint8))
Report = struct("vg_report", ("present", c_bool), ("identity", Identity), ("pin", c_uint8), ("slots", SlotReport * SLOTS),
                ("list", Listed * CAPABILITIES), ("list_count", c_size_t))


def load(archive, header):
    """The shared object, after every struct here is held to the size that the header gives."""
    sizes = dict(re.findall(r"^VG_SIZE\((\w+), (\d+)\);", Path(header).read_text(), re.M))
    ours = {kind.__name__: ctypes.sizeof(kind) for kind in globals().values()
            if isinstance(kind, type) and issubclass(kind, Structure) and kind is not Structure}
    for name, size in {**ours, "vg_bus": BUS}.items():
        if int(sizes[name]) != size:
            raise SystemExit(f"guest: {name} has {sizes[name]} bytes in the header and {size} here")
    vg = ctypes.CDLL(str(archive))
    for name, result in (("start", StartResult), ("read", ReadResult), ("write", WriteResult), ("lookup", LookupResult),
                         ("reset", ResetResult), ("enumerate", Report)):
        getattr(vg, "vg_" + name).restype = result
    vg.vg_start.argtypes = ctypes.c_void_p, ctypes.c_char_p, c_size_t
    vg.vg_read.argtypes = ctypes.c_void_p, ctypes.c_void_p, ReadAsk
    vg.vg_write.argtypes = ctypes.c_void_p, ctypes.c_void_p, WriteAsk
    vg.vg_lookup.argtypes = ctypes.c_void_p, LookupAsk
    vg.vg_reset.argtypes = ctypes.c_void_p,
    vg.vg_enumerate.argtypes = ctypes.c_void_p, c_size_t
    return vg


class Bus:
    def __init__(self, vg, state=None):
        self.vg, self.state, self.body = vg, state or ctypes.create_string_buffer(BUS), Snapshot()

    @classmethod
    def start(cls, vg, file):
        bus = cls(vg)
        return bus, vg.vg_start(bus.state, file, len(file))

    def copy(self):
        return Bus(self.vg, ctypes.create_string_buffer(self.state.raw, BUS))

    def read(self, device, offset, width):
        return self.vg.vg_read(self.state, ctypes.byref(self.body), ReadAsk(device, offset, width))

    def write(self, device, offset, width, value):
        return self.vg.vg_write(self.state, ctypes.byref(self.body), WriteAsk(device, offset, width, value))

    def lookup(self, address, width):
        return self.vg.vg_lookup(self.state, LookupAsk(address, width))

    def reset(self):
        return self.vg.vg_reset(self.state)

    def enumerate(self, device):
        return self.vg.vg_enumerate(self.state, device)

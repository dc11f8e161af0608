"""One boot: User Mode Linux on one side, the product's bus on the other. Every answer that Linux gets is the library's."""
import collections
import fcntl
import os
import selectors
import signal
import socket
import struct
import subprocess
import tempfile
import time
from pathlib import Path

import library
import vhost

CONFIG_READ, CONFIG_WRITE, MEMORY_READ, MEMORY_WRITE = 1, 2, 3, 4
HEAD = struct.Struct("<BBHIQ")
ONES = b"\xff" * 8
SILENCE = 120                                     # seconds without a word from the guest
NEWS = 20                                         # seconds between two lines of progress in one boot


class Slip:
    """Passes each answer on; a deliberate slip changes one."""
    name = "none"

    def read(self, device, offset, width, value):
        return value

    def write(self, device, offset, width, value):
        return value                              # None: the write is lost

    def hit(self, device, slot, offset):
        return device, slot, offset

    def reset(self, bus):
        return bus.reset()


class Hypervisor:
    """What stands around the bus in a hypervisor: the endpoints' memory, and what a refused guest access returns."""

    def __init__(self, bus, devices, slip=None):
        self.bus, self.devices, self.slip = bus, devices, slip or Slip()
        self.memory, self.count = {}, collections.Counter()
        self.present = set()                      # the devices that Linux can find so far
        self.asked, self.kept, self.all_kept, self.reached, self.trace = {}, {}, [], collections.Counter(), None

    def note(self, *words):
        if self.trace is not None:
            self.trace.append(words)

    def config_read(self, device, offset, width):
        got = self.bus.read(device if device in self.present else library.ABSENT, offset, width)
        if got.kind == library.VALUE:
            value = got.value
        elif got.kind == library.EFFECT:          # an endpoint that answers with the capability's body
            self.count["effect read"] += 1
            at = got.effect.offset - 2
            value = int.from_bytes(bytes(self.bus.body.bytes[at:at + width]), "little")
        else:
            self.count[f"refused {got.refusal}"] += 1
            value = int.from_bytes(ONES[:width], "little")
        if device in self.present:
            self.count[f"config read {width}"] += 1
            value = self.slip.read(device, offset, width, value)
            self.note("read", device, offset, width, value)
        return value.to_bytes(8, "little")[:width]

    def config_write(self, device, offset, width, data):
        if device not in self.present:
            return
        value = self.slip.write(device, offset, width, int.from_bytes(data[:width], "little"))
        self.count[f"config write {width}"] += 1
        self.note("write", device, offset, width, value)
        if value is None:
            return
        got = self.bus.write(device, offset, width, value)
        if got.kind == library.REFUSED:
            self.count[f"refused {got.refusal}"] += 1
        elif got.kind == library.EFFECT:
            self.count["effect write"] += 1
        elif got.kind == library.PROBING:
            self.count["probing"] += 1
        elif got.kind in (library.MOVED, library.KEPT):
            key = device, got.slot
            self.asked[key] = value & ~15
            if got.kind == library.KEPT:
                self.kept[key] = value & ~15, got.address
                self.all_kept.append((*key, value & ~15, got.address))
                self.count["kept"] += 1
            else:
                self.kept.pop(key, None)
                self.count["moved"] += 1

    def find(self, device, slot, offset, width):
        """The endpoint memory that an access reaches: Linux sends BAR and offset, the bus is asked by address."""
        got = self.bus.lookup(self.asked.get((device, slot), 0) + offset, width)
        if got.kind != library.HIT:
            self.reached[device, slot, "nothing"] += 1
            return None
        hit = self.slip.hit(got.device, got.slot, got.offset)
        where = "itself" if hit == (device, slot, offset) else f"device {hit[0]} slot {hit[1]}"
        self.reached[device, slot, where] += 1
        return hit

    def memory_access(self, op, device, slot, offset, width, data):
        step = width if width in (1, 2, 4, 8) else 1
        out = b""
        for k in range(0, width, step):
            hit = self.find(device, slot, offset + k, step)
            if op == MEMORY_WRITE:
                if hit:
                    self.memory[hit[0], hit[1], hit[2], step] = data[k:k + step]
            else:
                out += self.memory.get((*hit, step), bytes(step)) if hit else ONES[:step]
        self.count["memory read" if op == MEMORY_READ else "memory write"] += 1
        return out

    def serve(self, device):
        def answer(queue, request, room):
            op, bar, _reserved, size, address = HEAD.unpack_from(request)
            data = request[HEAD.size:]
            if op == CONFIG_READ:
                return self.config_read(device, address, size)
            if op == CONFIG_WRITE:
                return self.config_write(device, address, size, data) or b""
            if op in (MEMORY_READ, MEMORY_WRITE):
                return self.memory_access(op, device, bar, address, size, data)
            self.count["unknown request"] += 1
            return ONES[:1] * room
        return answer


class Dump:
    """What sysfs said of every function, and the bus at that moment."""

    def __init__(self, phase):
        self.phase, self.functions, self.bus, self.kept = phase, {}, None, None


class Boot:
    """dumps, log (phase, line), bound, memory: what the guest said. `binding` are the functions to bind a driver to."""

    def __init__(self, folder, host, plan, binding=(), one_by_one=False):
        self.folder, self.host, self.plan, self.binding, self.one_by_one = Path(folder), host, plan, list(binding), one_by_one
        self.dumps, self.log, self.bound, self.memory, self.ended = [], [], [], {}, False
        self.phase, self.open, self.failure = "boot", None, None

    # ---- what the guest prints
    def line(self, text):
        word, _, rest = text[1:].partition(" ")
        if word == "phase":
            self.phase = rest
            self.host.note("phase", rest)
            self.open = Dump(rest)
            if rest == "bus reset":
                self.host.slip.reset(self.host.bus)
            self.ended = rest == "off"
        elif word == "function":
            self.function = self.open.functions[int(rest.split(":")[2].split(".")[0], 16)] = {"resource": [], "config": b""}
        elif word == "resource":
            self.function["resource"].append(tuple(int(part, 16) for part in rest.split()))
        elif word == "config":
            self.function["config"] += bytes.fromhex(rest)
        elif word == "end":
            self.open.bus, self.open.kept = self.host.bus.copy(), dict(self.host.kept)
            self.dumps.append(self.open)
        elif word == "bound":
            self.bound.append(rest)
        elif word == "memory":
            name, bar, said = rest.split()
            self.memory[int(name.split(":")[2].split(".")[0], 16), int(bar)] = said == "ok"
        else:
            self.function[word] = int(rest, 0)

    def drain(self):
        """Reads what the guest has printed so far. It prints before it asks, so what was said is known before each answer."""
        for pipe in (1, 0):
            while True:
                try:
                    part = os.read(self.pipes[pipe], 65536)
                except BlockingIOError:
                    break
                if not part:
                    break
                *whole, self.rest[pipe] = (self.rest[pipe] + part).split(b"\n")
                for raw in whole:
                    text = raw.decode(errors="replace").rstrip("\r")
                    if pipe == 0 and text.startswith("@"):
                        self.line(text)
                    else:
                        self.log.append((self.phase, text))

    # ---- the run
    def run(self):
        with tempfile.TemporaryDirectory(prefix="vg-") as place:
            listeners = []
            for k in range(len(self.host.devices)):
                sock = socket.socket(socket.AF_UNIX)
                sock.bind(f"{place}/d{k}")
                sock.listen(1)
                listeners.append(sock)
            out, err = os.pipe(), os.pipe()
            self.pipes, self.rest = (out[0], err[0]), [b"", b""]
            for fd in self.pipes:
                os.set_blocking(fd, False)
                fcntl.fcntl(fd, fcntl.F_SETPIPE_SZ, 1 << 20)
            process = subprocess.Popen(
                ["setarch", "-R", str(self.folder / "linux"), "mem=32M", f"initrd={self.folder}/initramfs.gz", "rdinit=/init",
                 "con=null", "con0=null,fd:1", "stderr=1", f"uml_dir={place}/u", "plan=" + self.plan,
                 "binding=" + ",".join(f"0000:00:{k:02x}.0" for k in self.binding)]
                + [f"virtio_uml.device={place}/d{k}:1234" for k in range(len(listeners))],
                stdin=subprocess.DEVNULL, stdout=out[1], stderr=err[1], start_new_session=True,
                env={**os.environ, "LD_PRELOAD": str(self.folder / "xstate.so")})
            os.close(out[1])
            os.close(err[1])
            try:
                self.loop(listeners, process)
            finally:
                if process.poll() is None:
                    os.killpg(process.pid, signal.SIGKILL)
                process.wait()
                for thing in listeners:
                    thing.close()
                for fd in self.pipes:
                    os.close(fd)
        if not self.failure and not self.ended:
            self.failure = f"the guest ended in phase {self.phase}"
        return self

    def loop(self, listeners, process):
        select, devices = selectors.DefaultSelector(), {}
        for k, sock in enumerate(listeners):
            select.register(sock, selectors.EVENT_READ, k)
        for fd in self.pipes:
            select.register(fd, selectors.EVENT_READ, "console")
        silent, told = 0, time.time()
        while process.poll() is None:
            ready = select.select(1)
            silent = 0 if ready else silent + 1
            if silent > SILENCE:
                self.failure = f"silent for {SILENCE} s in phase {self.phase}"
                break
            if time.time() - told > NEWS:
                told = time.time()
                print(f"          {self.phase}: {sum(self.host.count.values())} accesses so far", flush=True)
            if any(key.data == "console" for key, _ in ready):
                self.drain()
            for key, _ in ready:
                if isinstance(key.data, int):
                    device = vhost.Device(key.fileobj.accept()[0], self.host.serve(self.host.devices[key.data]))
                    devices[self.host.devices[key.data]] = device
                    select.register(device.sock, selectors.EVENT_READ, device)
                elif key.data != "console":
                    try:
                        key.data.message()
                    except (EOFError, ConnectionError):
                        select.unregister(key.data.sock)
                    up = {n for n, d in devices.items() if d.rings[0].enabled}
                    if self.one_by_one or len(up) == len(listeners):
                        self.host.present = up    # Linux scans after each socket: held back, one scan finds all
        self.drain()
        for device in devices.values():
            device.close()
        select.close()

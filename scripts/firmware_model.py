"""A model of its own of the firmware tables and of the pair of 8259A, for `firmware`: integers, bytes and lists.

It was written from the formats of docs/PROFILE.md, the ACPI Specification (section 5.2.12), the PCI IRQ Routing Table
Specification 1.0 and the 8259A datasheet, and knows no definition of this repository.
"""
import re

# The MADT: a fault is an offset and the number of its reason, a line is interrupt, level, low.

NAMES = {
    21: "Short", 22: "BadSignature", 23: "BadLength", 24: "BadSum", 25: "CutEntry", 26: "BadEntryLength",
    31: "Short", 32: "BadSignature", 33: "BadVersion", 34: "BadSize", 35: "BadSum",
}  # fmt: skip
LENGTHS = {0: 8, 1: 12, 2: 10, 4: 6}


def number(block, at, size):
    return int.from_bytes(block[at : at + size], "little")


def madt_entries(block):
    """The offset of each entry, and the fault of the first that is none."""
    at, places = 44, []
    while at < len(block):
        if at + 1 == len(block):
            return places, (at, 25)
        kind, size = block[at], block[at + 1]
        if size < 2 or size != LENGTHS.get(kind, size):
            return places, (at + 1, 26)
        if at + size > len(block):
            return places, (at, 25)
        places.append(at)
        at += size
    return places, None


def madt_fault(block):
    """The first fault of a MADT, by offset and then by number, and None where it has none."""
    if len(block) < 44:
        return (0, 21)
    faults = [madt_entries(block)[1]]
    faults.append((0, 22) if block[:4] != b"APIC" else None)
    faults.append((4, 23) if number(block, 4, 4) != len(block) else None)
    faults.append((9, 24) if sum(block) % 256 else None)
    return min(filter(None, faults), default=None)


def isa_line(block, irq):
    """The line of an ISA interrupt in a MADT without a fault."""
    for at in madt_entries(block)[0]:
        if block[at] == 2 and block[at + 2] == 0 and block[at + 3] == irq:
            flags = number(block, at + 8, 2)
            return number(block, at + 4, 4), flags >> 2 & 3 == 3, flags & 3 == 3
    return irq, False, False


def line_text(line):
    return f"{line[0]} {'level' if line[1] else 'edge'} {'low' if line[2] else 'high'}"


def madt_answer(block, sources):
    """What `madtcmp` says of a MADT, and its status; the sources are the lines by the routes."""
    fault = madt_fault(block)
    if fault:
        return f"mptab: madt fault {fault[1]} {NAMES[fault[1]]} at {fault[0]:08X}\n", 13
    lines = [
        f"irq {irq} mp {line_text(line)} madt {line_text(isa_line(block, irq))}\n"
        for irq, line in sorted(sources.items())
        if line != isa_line(block, irq)
    ]
    return "".join(lines) + f"differs {len(lines)}\n", 1 if lines else 0


# The PCI IRQ routing table: a pin is bus, device and pin, a wire destination and INTIN.


def routing_fault(block):
    if len(block) < 32:
        return (0, 31)
    faults = [(0, 32)] if block[:4] != b"$PIR" else []
    faults += [(4, 33)] if block[4:6] != b"\0\1" else []
    faults += [(6, 34)] if number(block, 6, 2) % 16 or number(block, 6, 2) != len(block) else []
    faults += [(31, 35)] if sum(block) % 256 else []
    return min(faults, default=None)


def wires_of(buses, interrupts):
    """The wire of each pin, in the order in which the pins first appear; buses are ids and names, interrupts kind, bus, IRQ, destination, pin."""
    names, wires = {}, {}
    for bus, name in buses:
        names.setdefault(bus, name)
    for kind, bus, irq, dest, intin in interrupts:
        if kind == 0 and names.get(bus) == "PCI":
            wires.setdefault((bus, irq >> 2 & 31, irq & 3), (dest, intin))
    return wires


def sealed(block, at):
    block = bytearray(block)
    block[at] = 0
    block[at] = -sum(block) % 256
    return bytes(block)


def made_routing_table(wires):
    """The bytes of the table for pins with these wires."""
    order = list(dict.fromkeys(wires.values()))
    slots = b""
    for bus, device in dict.fromkeys(pin[:2] for pin in wires):
        links = [order.index(wires[bus, device, n]) + 1 if (bus, device, n) in wires else 0 for n in range(4)]
        slots += bytes([bus, 8 * device]) + b"".join(bytes([link, 0, 0]) for link in links) + bytes(2)
    return sealed(b"$PIR\0\1" + (32 + len(slots)).to_bytes(2, "little") + bytes(24) + slots, 31)


def link_of(block, pin):
    for at in range(32, len(block), 16):
        if (block[at], block[at + 1] >> 3) == pin[:2]:
            return block[at + 2 + 3 * pin[2]]
    return 0


def oddity(link, wire, earlier):
    """Why a pin with this link and this wire is odd, where these wires came before with the link."""
    if not link:
        return "onlymp" if wire else None
    if not wire:
        return "onlypir"
    return "link" if any(other != wire for other in earlier) else None


def routing_answer(block, wires):
    """What `pircmp` says of a table, and its status."""
    fault = routing_fault(block)
    if fault:
        return f"mptab: pir fault {fault[1]} {NAMES[fault[1]]} at {fault[0]:08X}\n", 15
    pins = {(block[at], block[at + 1] >> 3, n) for at in range(32, len(block), 16) for n in range(4)} | set(wires)
    lines, seen = [], {}
    for pin in sorted(pins):
        link, wire = link_of(block, pin), wires.get(pin)
        why = oddity(link, wire, seen.get(link, []))
        if link and wire:
            seen.setdefault(link, []).append(wire)
        if why:
            lines.append(f"bus {pin[0]:02X} device {pin[1]:02X} pin {'ABCD'[pin[2]]} {why}\n")
    return "".join(lines) + f"differs {len(lines)}\n", 1 if lines else 0


# The pair of 8259A: lists of requests, of marks in service and of lines that are up, over 0 to 15.

ORDER = [0, 1, *range(8, 16), *range(3, 8)]
CALL = re.compile(r"out (?:2[0-3]|A[01]) [0-9A-F]{2}|in (?:2[01]|A[01])|irq (?:[013-9]|1[0-5]) (?:up|down)|ack")


class Controller:
    def __init__(self):
        self.stage, self.base, self.mask, self.reads_marks, self.has_fourth = "off", 0, 0, False, False


class Pair:
    def __init__(self):
        self.sides = [Controller(), Controller()]
        self.requests, self.marks, self.up = [], [], []

    def command(self, side, v):
        controller = self.sides[side]
        mine = [n for n in self.marks if n // 8 == side]
        if v & 0x10:
            controller.stage, controller.mask, controller.reads_marks, controller.has_fourth = "second", 0, False, bool(v & 1)
            self.requests = [n for n in self.requests if n // 8 != side]
            self.marks = [n for n in self.marks if n // 8 != side]
        elif v & 8:
            controller.reads_marks = bool(v & 1) if v & 2 else controller.reads_marks
        elif v >> 5 == 1 and mine:
            self.marks.remove(min(mine))
        elif v >> 5 == 3 and 8 * side + (v & 7) in mine:
            self.marks.remove(8 * side + (v & 7))

    def data(self, side, v):
        controller = self.sides[side]
        if controller.stage == "second":
            controller.base, controller.stage = v & 0xF8, "third"
        elif controller.stage == "third" and controller.has_fourth:
            controller.stage = "fourth"
        elif controller.stage in ("third", "fourth"):
            controller.stage = "ready"
        else:
            controller.mask = v

    def drive(self, n, rises):
        if rises and n not in self.up:
            self.up.append(n)
            self.requests += [n] if n not in self.requests else []
        elif not rises and n in self.up:
            self.up.remove(n)

    def is_open(self, n):
        held = any(m // 8 == n // 8 and m <= n for m in self.marks)
        return not held and not self.sides[n // 8].mask >> n % 8 & 1

    def is_asked(self, n):
        return self.sides[1].stage == "ready" and n in self.requests and self.is_open(n)

    def is_eligible(self, n):
        if self.sides[0].stage != "ready":
            return False
        return self.is_asked(n) and self.is_open(2) if n > 7 else n in self.requests and self.is_open(n)

    def acknowledge(self):
        for n in filter(self.is_eligible, ORDER):
            self.requests.remove(n)
            self.marks += [m for m in ([n, 2] if n > 7 else [n]) if m not in self.marks]
            return self.sides[n // 8].base + n % 8
        return None

    def read(self, side):
        of = self.marks if self.sides[side].reads_marks else self.requests
        bits = {n % 8 for n in of if n // 8 == side}
        if side == 0 and not self.sides[0].reads_marks and any(map(self.is_asked, range(8, 16))):
            bits.add(2)
        return sum(1 << n for n in bits)


def bad_line(text):
    """The first line that is no call, from 1, or None."""
    *lines, last = text.split("\n")
    for at, line in enumerate(lines, 1):
        if not CALL.fullmatch(line):
            return at
    return len(lines) + 1 if last else None


def played(text, imcr, way):
    """What calls answer; imcr is None, "pic" or "apic", and way that of INTR where the APICs are connected, None where there is none."""
    pair, is_selected, out = Pair(), False, []
    for word, *rest in (line.split() for line in text.splitlines()):
        port = int(rest[0], 16) if word in ("in", "out") else 0
        value = int(rest[1], 16) if word == "out" else 0
        if word == "irq":
            pair.drive(int(rest[0]), rest[1] == "up")
        elif word == "ack":
            path = "direct" if imcr == "pic" else way
            vector = pair.acknowledge() if path else None
            out.append("ack none" if vector is None else f"ack {vector:02X} {path}")
        elif word == "in":
            side = port // 0x80
            out.append(f"in {port:02X} = {pair.sides[side].mask if port & 1 else pair.read(side):02X}")
        elif port == 0x22:
            is_selected = value == 0x70 if imcr else is_selected
        elif port == 0x23:
            imcr = {0: "pic", 1: "apic"}.get(value, imcr) if imcr and is_selected else imcr
        elif port & 1:
            pair.data(port // 0x80, value)
        else:
            pair.command(port // 0x80, value)
    return "\n".join([*out, "end"]) + "\n"


def calls_answer(text, imcr, way):
    """What `pic` says of a text of calls, and its status."""
    bad = bad_line(text)
    return (f"mptab: pic line {bad} Form\n", 14) if bad else (played(text, imcr, way), 0)

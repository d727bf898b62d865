"""Boards for `boots`: random ones with their image and script, and what the model has to know of them.

The boot program and the routes are written after docs/PROFILE.md and MultiProcessor Specification 1.4, chapter 4 and
appendix B.4, not after the definitions in crates/.
"""
import dataclasses
import json

import images

BUSES = ((0, "ISA"), (1, "PCI"), (2, "EISA"), (3, "VL"))
MODES = (0, 4, 2, 7)


@dataclasses.dataclass
class Case:
    """A board: its files, and its config as the model wants it."""

    image: bytes
    script: str
    config: dict
    interrupts: list

    def counts(self):
        return len(self.config["cpus"]), len(self.config["ios"]), len(self.config["devices"])


def routes(interrupts, ios, elcr):
    """The low words of the pins that the tables' I/O interrupts reach: (place, pin, low), in their order."""
    names, taken, found = dict(BUSES), {}, []
    places = {number: place for place, number in reversed(list(enumerate(ios[:4])))}
    for kind, flags, bus, irq, dest, pin in interrupts:
        name, polarity, trigger = names.get(bus), flags & 3, flags >> 2 & 3
        conforms = 0 in (polarity, trigger)
        if dest == 255 or name is None or dest not in places or pin > 23 or kind > 3 or 2 in (polarity, trigger):
            continue
        if conforms and name not in ("ISA", "EISA", "PCI", "MCA"):
            continue
        level = name in ("PCI", "MCA") or name == "EISA" and irq < 16 and elcr >> irq & 1 == 1
        low_line = level if polarity == 0 else polarity == 3
        is_level = (level if trigger == 0 else trigger == 3) and kind == 0
        place = places[dest]
        vector = 32 + 24 * place + pin if kind == 0 else 0
        if (place, pin) not in taken:
            taken[place, pin] = True
            found.append((place, pin, vector | MODES[kind] << 8 | low_line << 13 | is_level << 15))
    return found


def boot_ops(boot, processors, pins, page, imcr):
    """The boot program: the others are started, and the pins are programmed."""
    ops = [("Imcr",)] if imcr else []
    for number, version in processors:
        if number == boot:
            continue
        old = version < 0x10
        ops += [("Warm", page)] * old + [("Init", number), ("Pause", 10000)]
        ops += [] if old else [("Startup", number, page), ("Pause", 200)] * 2
        ops.append(("Check", number))
    for place, pin, low in pins:
        ops += [("IoSel", place, 17 + 2 * pin), ("IoWin", place, boot << 24)]
        ops += [("IoSel", place, 16 + 2 * pin), ("IoWin", place, low)]
    return ops


def word_of(op):
    """An op of a processor as a word of a script."""
    return " ".join([op[0].lower(), *map(str, op[1:])])


def cpu_op(rng, ids, pins):
    dest = rng.choice(ids + [255, 77])
    ops = [("Ipi", dest, rng.choice([0x0F, 0x10, 0x21, 0x30, 0x31, 0xFF])), ("Nmi", dest), ("Poll",)]
    ops += [("Take",), ("Eoi",)] * 3 + [("Tpr", rng.choice([0, 0x20, 0x35])), ("Pause", rng.choice([1, 5]))]
    ops += [("Ldr", rng.choice([1, 2, 3, 0x11, 0x21])), ("Dfr", rng.choice([0, 15]))]
    ops.append(("Ipl", rng.choice([1, 3, 0x11, 0x20, 255]), rng.choice([0x0F, 0x21, 0x30])))
    if pins:
        place, pin = rng.choice(pins)
        low = rng.choice([0x10, 0x21, 0x30, 0x0F]) | rng.choice([0, 0, 0, 1, 4, 7]) << 8 | rng.getrandbits(1) << 15
        ops += [("IoSel", place, rng.choice([0, 1, 15, 16 + 2 * pin, 16 + 2 * pin])), ("IoRead", place)]
        ops += [("IoWin", place, low | rng.choice([0, 0, 0, 1]) << 16)]
    return rng.choice(ops)


def tables_of(processors, ios, interrupts, imcr):
    """The image of a board. A processor is (id, version, flags), an I/O APIC (id, whether it is enabled)."""
    rows = [images.processor(number, flags, version) for number, version, flags in processors]
    rows += [images.bus(number, name) for number, name in BUSES]
    rows += [images.io_apic(number)[:3] + bytes([enabled]) + images.io_apic(number)[4:] for number, enabled in ios]
    rows += [images.interrupt(3, kind, bus, irq, dest, pin, flags) for kind, flags, bus, irq, dest, pin in interrupts]
    image = bytearray(images.small_image(images.table(b"".join(rows), len(rows))))
    features = bytes([0, 0x80 * imcr, 0, 0, 0])
    image[images.SMALL_POINTER_AT : images.SMALL_TABLE_AT] = images.pointer(images.SMALL_TABLE_AT, features)
    return bytes(image)


def script_of(page, elcr, present, programs, devices):
    text = [f"page = {page}\n", f"elcr = {elcr}\n"]
    text += [f"present = {json.dumps(present)}\n"] if present is not None else []
    for number, ops in programs:
        text.append(f"[[cpu]]\nid = {number}\nwords = {json.dumps([word_of(op) for op in ops])}\n")
    for words in devices:
        text.append(f"[[device]]\nwords = {json.dumps([f'{name.lower()} {place} {pin}' for name, place, pin in words])}\n")
    return "".join(text)


def case_of(processors, ios, interrupts, imcr, page, elcr, present, programs, devices):
    """The board of these tables and this script. Its processors are the enabled ones that are present, ascending."""
    enabled = [(number, version) for number, version, flags in processors if flags & 1]
    boot = next(number for number, _, flags in processors if flags & 3 == 3)
    numbers = [number for number, there in ios if there]
    ops = boot_ops(boot, enabled, routes(interrupts, numbers, elcr), page, imcr)
    own = dict(programs)
    cpus = [
        (number, version, (ops if number == boot else []) + own.get(number, []))
        for number, version in sorted(enabled)
        if present is None or number in present
    ]
    config = {"boot": boot, "boot_len": len(ops), "cpus": cpus, "ios": numbers, "imcr": imcr, "devices": devices}
    image = tables_of(processors, ios, interrupts, imcr)
    return Case(image, script_of(page, elcr, present, programs, devices), config, interrupts)


def random_case(rng, most):
    """A random board with 1 to 8 processors, 0 to 4 I/O APICs, 0 to 4 devices, and at most so many words an agent."""
    count, io_count = rng.randint(1, 8), rng.randint(0, 4)
    boot = rng.randrange(15)
    others = rng.sample([n for n in [*range(20), 100, 254] if n != boot], count - 1 + rng.randint(0, 2))
    board = [boot] + others[: count - 1]
    processors = [(n, rng.choice([0x01, 0x0F, 0x10, 0x14]), 3 if n == boot else 1) for n in [boot] + others]
    if rng.random() < 0.2:
        processors.append((200, 0x10, 2))
    rng.shuffle(processors)
    present = None if len(board) == len(others) + 1 and rng.random() < 0.7 else rng.sample(board, len(board))
    ios = [(n, True) for n in rng.sample([*range(1, 12), 250], io_count)]
    if rng.random() < 0.2:
        ios.insert(rng.randint(0, io_count), (99, False))
    pins = [(place, pin) for place in range(io_count) for pin in rng.sample(range(24), rng.randint(1, 5))]
    numbers = [n for n, there in ios if there]
    interrupts = [
        (rng.choice([0] * 8 + [1, 2, 3]), rng.choice([0, 0, 5, 13, 15, 2]), rng.choice([0, 0, 1, 2, 3, 9]), rng.randrange(20), numbers[place], pin)
        for place, pin in pins
    ]
    if numbers:
        interrupts += [(0, 5, 0, 1, rng.choice([255, 98, 99]), 3), (0, 5, 0, 2, numbers[0], 24)]
        interrupts.append((0, 15, 1, 3, numbers[0], interrupts[0][5]))
    programs = [(n, [cpu_op(rng, board, pins) for _ in range(rng.randint(0, most))]) for n in board if rng.random() < 0.8]
    kinds = ["Pulse"] * 4 + ["High", "Low"]
    devices = [
        [(rng.choice(kinds), *rng.choice(pins)) for _ in range(rng.randint(0, most))] if pins else []
        for _ in range(rng.randint(0, 4))
    ]
    page, elcr = rng.choice([0, 0x10, 0x9F, 0xC0]), rng.choice([0, 0xFFFF, 0x0C20])
    return case_of(processors, ios, interrupts, bool(rng.getrandbits(1)), page, elcr, present, programs, devices)


def usual_case():
    """Two processors, an I/O APIC whose sixteen ISA interrupts are routed, and a device: a usual board."""
    interrupts = [(0, 0, 0, irq, 2, irq or 2) for irq in range(16) if irq != 2]
    programs = [(0, [("Take",), ("Eoi",)]), (1, [("Ipi", 0, 0x31), ("Pause", 1)])]
    return case_of([(0, 0x14, 3), (1, 0x14, 1)], [(2, True)], interrupts, False, 0x9F, 0, None, programs, [[("Pulse", 0, 1)]])


def full_case(pauses):
    """Eight processors, four I/O APICs and four devices. Each processor makes so many pauses, each device a pulse on each pin."""
    ios = [(8 + place, True) for place in range(4)]
    interrupts = [(0, 5, 0, pin, 8 + place, pin) for place in range(4) for pin in range(6)]
    programs = [(n, [("Ipi", (n + 1) % 8, 0x81 + n)] + [("Pause", 1)] * pauses) for n in range(8)]
    devices = [[("Pulse", place, pin) for pin in range(6)] for place in range(4)]
    processors = [(n, 0x10, 1 if n else 3) for n in range(8)]
    return case_of(processors, ios, interrupts, False, 0x9F, 0, None, programs, devices)

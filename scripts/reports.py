"""Boards with a script and their report, and changed reports: what `mutate` and `bench` give to `mptab replay`."""

import json
import random
import re

import images

MIB = 1 << 20
# Numbers at the limits of what a line can say, and beyond any type.
DECIMALS = ["0", "00", "1", "3", "4", "23", "24", "255", "256", "4294967295", "4294967296", str(2**64 - 1), str(2**64), "9" * 70]
DIGITS = re.compile(r"[0-9A-F]+")

# One processor and one I/O APIC, on whose pin 1 three devices make a pulse each.
PULSES_SCRIPT = 'page = 0x9F\n[[cpu]]\nid = 0\nwords = ["take", "eoi"]\n' + '[[device]]\nwords = ["pulse 0 1"]\n' * 3
PULSES_REPORT = """mpboot 1
entries 15
0 cpu 00 iosel 0 13 : done
1 cpu 00 iowin 0 00000000 : plain
2 cpu 00 iosel 0 12 : done
3 cpu 00 iowin 0 00000021 : plain
4 dev 0 begin : done
5 dev 1 begin : done
6 dev 2 begin : done
7 io 0 collect 000002 : pins.000002.000000
8 dev 0 end : done
9 dev 1 end : done
10 dev 2 end : done
11 io 0 send 1 : 00=set
12 cpu 00 take : taken.21
13 io 0 sweep : done
14 cpu 00 eoi : ended.21.edge
log 0 : 0.1=new
log 1 : 0.1=merged
log 2 : 0.1=merged
state imcr none
state cpu 00 first tpr 00 irr - isr - tmr -
state io 0 line 000000 due 000000 remote 000000
end
"""


def pulses_image():
    """Its image: the vector of ISA interrupt 1 is the one that the boot program gives."""
    rows = [images.processor(0, 3), images.bus(0, "ISA"), images.io_apic(1), images.interrupt(3, 0, 0, 1, 1, 1)]
    return images.small_image(images.table(b"".join(rows), len(rows)))


def pauses(count):
    """One processor that makes this many pauses: its image, its script and the report of its run."""
    image = images.small_image(images.table(images.processor(0, 3), 1))
    text = "page = 0x9F\n[[cpu]]\nid = 0\nwords = " + json.dumps(["pause 1"] * count) + "\n"
    return image, text, run_of_pauses(count)


def run_of_pauses(count):
    lines = ["mpboot 1", f"entries {count}"]
    lines += [f"{number} cpu 00 pause 1 : done" for number in range(count)]
    lines += ["state imcr none", "state cpu 00 first tpr 00 irr - isr - tmr -", "end", ""]
    return "\n".join(lines)


def changed_bytes(rng, text):
    data = bytearray(text.encode())
    for _ in range(rng.randint(1, 4)):
        at = rng.randrange(len(data))
        data[at] = rng.choice([rng.randrange(256), (data[at] + 1) % 256, (data[at] - 1) % 256, 0, 10, 32, 255])
    return bytes(data)


def changed_lines(rng, text):
    """Two lines exchanged, one left out, one said twice, or one of them behind the end."""
    lines = text.splitlines(keepends=True)
    one, other = rng.randrange(len(lines)), rng.randrange(len(lines))
    way = rng.randrange(4)
    if way == 0:
        lines[one], lines[other] = lines[other], lines[one]
    elif way == 1:
        del lines[one]
    elif way == 2:
        lines.insert(other, lines[one])
    else:
        lines.append(lines[one])
    return "".join(lines).encode()


def changed_number(rng, text):
    """One number at a limit: decimal, or as wide as it was, or a digit wider or shorter."""
    found = list(DIGITS.finditer(text))
    at = rng.choice(found)
    width = len(at.group())
    wide = ["0" * width, "F" * width, "F" * (width + 1), "0" * max(width - 1, 0), f"{rng.randrange(16 ** min(width, 16)):0{width}X}"]
    return (text[: at.start()] + rng.choice(DECIMALS + wide) + text[at.end() :]).encode()


def cut(rng, text):
    return text[: rng.randrange(len(text))].encode()


def mutant(rng, text):
    """The report changed in one of these ways."""
    return rng.choice([changed_bytes, changed_lines, changed_number, changed_number, cut])(rng, text)


def large():
    """Reports of many bytes: their names and texts."""
    head = b"mpboot 1\nentries 1000000\n"
    yield "64 MiB of one line", b"9" * (64 * MIB)
    yield "64 MiB of an entry's outcomes", b"mpboot 1\nentries 1\n0 cpu 00 nmi FF :" + b" 00=nmi" * (9 * MIB) + b"\n"
    yield "64 MiB of a log", b"mpboot 1\nentries 0\nlog 0 :" + b" 0.1=new" * (8 * MIB) + b"\nstate imcr none\nend\n"
    yield "64 MiB of an entries' number", b"mpboot 1\nentries " + b"9" * (64 * MIB) + b"\n"
    yield "64 MiB of line feeds", b"\n" * (64 * MIB)
    yield "a million entries", run_of_pauses(1_000_000).encode()
    yield "a million entries that are no steps", head + b"".join(b"%d cpu 05 pause 1 : done\n" % n for n in range(1_000_000)) + b"state imcr none\nend\n"


if __name__ == "__main__":
    print(mutant(random.Random(1), PULSES_REPORT).decode(errors="replace"), end="")

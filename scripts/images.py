"""Images for the scripts beside this file: memory from address 0, with a pointer and a table in it.

Layouts are those of MultiProcessor Specification 1.4, chapter 4.
"""

SMALL_POINTER_AT = 0x500
SMALL_TABLE_AT = 0x510
LAST_AREA = 0xF0000
MIB = 1 << 20


def seal(block, at):
    """Sets the byte at `at` so that the bytes sum to 0."""
    block[at] = 0
    block[at] = -sum(block) % 256


def pointer(address, features=bytes(5)):
    block = bytearray(b"_MP_" + address.to_bytes(4, "little") + b"\x01\x04\x00" + features)
    seal(block, 10)
    return bytes(block)


def table(base, count, extended=b""):
    """A table of these entries, with right lengths and checksums."""
    block = bytearray(b"PCMP" + bytes(2) + b"\x04\x00" + b"MPTAB   " + b"BOARD       " + bytes(6))
    block += count.to_bytes(2, "little") + (0xFEE00000).to_bytes(4, "little")
    block += len(extended).to_bytes(2, "little") + bytes([-sum(extended) % 256, 0])
    block += base
    block[4:6] = len(block).to_bytes(2, "little")
    seal(block, 7)
    return bytes(block) + extended


def small_image(block):
    """An image that ends with the table; the EBDA word names the pointer's place."""
    image = bytearray(SMALL_TABLE_AT)
    image[0x40E:0x410] = (SMALL_POINTER_AT // 16).to_bytes(2, "little")
    image[SMALL_POINTER_AT:SMALL_TABLE_AT] = pointer(SMALL_TABLE_AT)
    return bytes(image) + block


def large_image(size, block):
    """An image of `size` bytes, zero but for the pointer at F0000h and the table behind it."""
    image = bytearray(size)
    at = LAST_AREA + 16
    image[LAST_AREA:at] = pointer(at)
    image[at : at + len(block)] = block
    return bytes(image)


def processor(apic, flags, version=0x10):
    return bytes([0, apic, version, flags]) + b"\x20\x05\x00\x00\xBF\x01\x00\x00" + bytes(8)


def bus(number, name):
    return bytes([1, number]) + name.ljust(6).encode()


def io_apic(number, address=0xFEC00000):
    return bytes([2, number, 0x11, 1]) + address.to_bytes(4, "little")


def interrupt(type_, kind, bus_, irq, dest, pin, flags=0):
    return bytes([type_, kind]) + flags.to_bytes(2, "little") + bytes([bus_, irq, dest, pin])


def one_processor():
    """The table of a board with one processor: 64 bytes."""
    return table(processor(0, 3), 1)

#!/usr/bin/env python3
"""Figures for the signature kinds, made by another program than the one they are compared with.

usage: vectors.py            write crates/vectors/stdin
       vectors.py --check    compare crates/vectors/stdin with what would be written

Every register here goes bit by bit; there is no table. The seed is fixed, so that the file is always
the same. A line is one vector: its fields stand one space apart and the answer is the last; octets
and figures are hexadecimal, two digits to an octet, and no octets are an empty field.

    sign KIND CRC NUMBER OCTETS SIGNATURE    the signature of the octets under the number
    fits KIND CRC NUMBER FRAME 00|01         whether the frame fits the number: 01 if it does
    run KIND START OCTETS REGISTER           the register after the octets, from any start (four octets)
    crc OCTETS REGISTER                      the check value of a parameter block, from register 0
"""
import sys
from pathlib import Path

TABLE = Path(__file__).resolve().parent.parent / "crates" / "vectors" / "stdin"

WIDTH = {"S3": 3, "S4": 4, "C3": 3}
POLYNOMIAL = {"S3": 0x5D6DCB, "S4": 0xF4ACFB13}
BLOCK_POLYNOMIAL = 0x4EAB
LARGEST_NUMBER = 0xFFFFFF
LENGTHS = range(124)


# --- the rules ---------------------------------------------------------------------------------

def feed_bits(register, octet, bits, polynomial):
    """The bit rule: an octet's bits, the highest first, into a register of so many bits."""
    for place in range(7, -1, -1):
        top = register >> (bits - 1) & 1
        register = register << 1 & (1 << bits) - 1
        if top ^ (octet >> place & 1):
            register ^= polynomial
    return register


def rotate(register, octet):
    """The bench kind: 24 bits rotate left by eight, and the octet goes into the lowest octet."""
    return ((register << 8 | register >> 16) & 0xFFFFFF) ^ octet


def run(kind, register, octets):
    for octet in octets:
        if kind == "C3":
            register = rotate(register, octet)
        else:
            register = feed_bits(register, octet, 8 * WIDTH[kind], POLYNOMIAL[kind])
    return register


def sign(kind, crc, number, octets):
    """The start is the block's check value; the number's three octets go before the frame's."""
    register = run(kind, crc, number.to_bytes(3, "big") + octets)
    return register.to_bytes(WIDTH[kind], "big")


def fits(kind, crc, number, frame):
    width = WIDTH[kind]
    if len(frame) < width:
        return False
    return frame[len(frame) - width:] == sign(kind, crc, number, frame[:len(frame) - width])


def block_check(octets):
    """The check value of a parameter block: 16 bits, from 0, by the bit rule."""
    register = 0
    for octet in octets:
        register = feed_bits(register, octet, 16, BLOCK_POLYNOMIAL)
    return register


# --- figures that others have published --------------------------------------------------------

DIGITS = b"123456789"
WORKED_FRAME = bytes.fromhex(
    "02" "0008" "0000" "0000" "0020" "0004" "0000" "0000" "0000"
    "0008" "0000" "0000" "0020" "0004" "0000" "0000" "0000")
WORKED_BLOCK = bytes.fromhex(
    "000C" "0005" "0018" "0003" "0000" "0000" "0009" "0005" "0000" "0000" "0000" "0000")
WORKED_CHECK = 0x0F33


def mirrored(value, bits):
    """The same bits in the opposite order."""
    return int(format(value, f"0{bits}b")[::-1], 2)


def published():
    """(kind, start, octets, register after them). CRC-32/AUTOSAR feeds each octet's lowest bit first and
    turns the register round and over at the end; here the octets are mirrored, and its published
    value is turned back."""
    autosar = mirrored(0x1697D06A ^ 0xFFFFFFFF, 32)
    return [
        ("S3", 0xFEDCBA, DIGITS, 0x7979BD),
        ("S3", 0xABCDEF, DIGITS, 0x1F23B8),
        ("S4", 0xFFFFFFFF, bytes(mirrored(o, 8) for o in DIGITS), autosar),
        ("S4", 0, WORKED_FRAME, 0x9EBE9328),
    ]


# --- what the frames are made from -------------------------------------------------------------

class Source:
    """SplitMix64: the same numbers on every machine."""

    def __init__(self, seed):
        self.state = seed

    def word(self):
        mask = (1 << 64) - 1
        self.state = (self.state + 0x9E3779B97F4A7C15) & mask
        z = self.state
        z = (z ^ z >> 30) * 0xBF58476D1CE4E5B9 & mask
        z = (z ^ z >> 27) * 0x94D049BB133111EB & mask
        return z ^ z >> 31

    def below(self, limit):
        return self.word() % limit

    def octets(self, count):
        return bytes(self.word() & 0xFF for _ in range(count))


def flipped(frame, places):
    """The frame with the bits at these places changed: octets in order, the highest bit first."""
    octets = bytearray(frame)
    for place in places:
        octets[place // 8] ^= 0x80 >> place % 8
    return bytes(octets)


def burst(source, frame, span):
    """A change whose first and last bit span so many bits, and any bits between them."""
    first = source.below(8 * len(frame) - span + 1)
    inner = [first + i for i in range(1, span - 1) if source.below(2)]
    return flipped(frame, {first, first + span - 1, *inner})


# --- the table ---------------------------------------------------------------------------------

def sign_line(kind, crc, number, octets):
    signature = sign(kind, crc, number, octets)
    return f"sign {kind} {crc:04x} {number:06x} {octets.hex()} {signature.hex()}"


def fits_line(kind, crc, number, frame, due=None):
    """`due`: what the rules promise of this frame, where they promise something."""
    answer = fits(kind, crc, number, frame)
    assert due is None or answer == due, (kind, crc, number, frame.hex())
    return f"fits {kind} {crc:04x} {number:06x} {frame.hex()} {int(answer):02x}"


def run_line(kind, start, octets, register):
    assert run(kind, start, octets) == register, (kind, start, octets.hex())
    return f"run {kind} {start:08x} {octets.hex()} {register.to_bytes(WIDTH[kind], 'big').hex()}"


def crc_line(octets):
    return f"crc {octets.hex()} {block_check(octets):04x}"


def edges(kind):
    """The smallest, the largest and the neighbours of whole octets, for numbers and check values."""
    numbers = [0, 1, 2, 0xFF, 0x100, 0xFFFF, 0x10000, 0x7FFFFF, 0x800000, 0xFFFFFE, 0xFFFFFF]
    checks = [0, 1, 0xFF, 0x100, 0x7FFF, 0x8000, 0xFFFE, 0xFFFF]
    for number in numbers:
        for crc in checks:
            yield sign_line(kind, crc, number, b"\x00")


def short_frames(kind, source):
    """Frames with no room for a signature, or for nothing else."""
    for count in range(WIDTH[kind]):
        yield fits_line(kind, 0, 0, bytes(count), False)
        yield fits_line(kind, source.below(1 << 16), source.below(1 << 24), source.octets(count), False)
    yield fits_line(kind, 0, 0, bytes(WIDTH[kind]), True)


def every_bit(kind, source):
    """One frame with each of its bits changed in turn."""
    crc, number = source.below(1 << 16), source.below(1 << 24)
    body = source.octets(3)
    frame = body + sign(kind, crc, number, body)
    for place in range(8 * len(frame)):
        yield fits_line(kind, crc, number, flipped(frame, [place]), False)


def otherwise(kind, source, crc, number, frame, turn):
    """The frame held against another number or another check value, or cut, or with an octet more."""
    if turn == 0:
        other = (number + 1 + source.below(LARGEST_NUMBER)) % (LARGEST_NUMBER + 1)
        return fits_line(kind, crc, other, frame, False)
    if turn == 1:
        other = (crc + 1 + source.below(0xFFFF)) % 0x10000
        return fits_line(kind, other, number, frame, False)
    if turn == 2:
        return fits_line(kind, crc, number, frame[:len(frame) - 1 - source.below(WIDTH[kind])])
    return fits_line(kind, crc, number, frame + source.octets(1))


def frames(kind, source):
    """For every length: one signed, one that fits, one with a changed bit, one with a burst, one otherwise."""
    for length in LENGTHS:
        crc, number = source.below(1 << 16), source.below(1 << 24)
        yield sign_line(kind, crc, number, source.octets(length))
        crc, number = source.below(1 << 16), source.below(1 << 24)
        body = source.octets(length)
        frame = body + sign(kind, crc, number, body)
        yield fits_line(kind, crc, number, frame, True)
        yield fits_line(kind, crc, number, flipped(frame, [source.below(8 * len(frame))]), False)
        yield fits_line(kind, crc, number, burst(source, frame, 2 + source.below(8 * WIDTH[kind] - 1)), False)
        yield otherwise(kind, source, crc, number, frame, length % 4)


def blocks(source):
    """Check values of parameter blocks: the worked one, one octet at each place, and any eight octets."""
    yield crc_line(WORKED_BLOCK)
    yield crc_line(b"")
    for place in range(8):
        yield crc_line(bytes(8)[:place] + b"\x01" + bytes(7 - place))
    for _ in range(100):
        yield crc_line(source.octets(8))


def lines():
    assert block_check(WORKED_BLOCK) == WORKED_CHECK
    source = Source(20240501)
    for vector in published():
        yield run_line(*vector)
    for kind in WIDTH:
        yield from edges(kind)
        yield from short_frames(kind, source)
        yield from every_bit(kind, source)
        yield from frames(kind, source)
    yield from blocks(source)


def main():
    text = "".join(line + "\n" for line in lines())
    if sys.argv[1:] == ["--check"]:
        same = TABLE.read_text() == text
        print("the same" if same else "another table")
        return 0 if same else 1
    TABLE.parent.mkdir(parents=True, exist_ok=True)
    TABLE.write_text(text)
    print(f"{text.count(chr(10))} vectors")
    return 0


if __name__ == "__main__":
    sys.exit(main())

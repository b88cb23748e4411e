"""Which of the numbered reasons refuses a file as an image (docs/MACHINE.md, ELF32 for RISC-V)."""

import struct

LIMIT = 16 * 2**20
PAGE = 65536


def u16(file, at):
    return struct.unpack_from("<H", file, at)[0]


def u32(file, at):
    return struct.unpack_from("<I", file, at)[0]


def headers(file):
    """The program headers: (type, offset, address, file size, memory size, flags) of each."""
    start, number = u32(file, 28), u16(file, 44)
    fields = [struct.unpack_from("<8I", file, start + 32 * k) for k in range(number)]
    return [(f[0], f[1], f[2], f[4], f[5], f[6]) for f in fields]


def overlap(segments):
    ordered = sorted((address, address + size) for address, size in segments)
    return any(first[1] > second[0] for first, second in zip(ordered, ordered[1:]))


def refusal(file, ram=2**20):
    """The number of the first reason that stands, or None."""
    if len(file) > LIMIT:
        return 13
    if len(file) < 52:
        return 1
    if file[0:4] != b"\x7fELF":
        return 2
    if tuple(file[4:7]) != (1, 1, 1):
        return 3
    if u16(file, 16) != 2:
        return 4
    if u16(file, 18) != 243:
        return 5
    if u32(file, 36) & 1:
        return 6
    if u16(file, 40) != 52 or u16(file, 42) != 32:
        return 7
    if u32(file, 28) + 32 * u16(file, 44) > len(file):
        return 8
    all_headers = headers(file)
    if any(header[0] == 3 for header in all_headers):
        return 9
    loadable = [header for header in all_headers if header[0] == 1]
    if any(h[1] + h[3] > len(file) or h[3] > h[4] for h in loadable):
        return 10
    present = [h for h in loadable if h[4] > 0]
    if not present:
        return 11
    base = min(h[2] for h in present) // PAGE * PAGE
    if base + ram >= 2**32 or any(h[2] + h[4] > base + ram for h in present):
        return 11
    if overlap([(h[2], h[4]) for h in present]):
        return 11
    entry = u32(file, 24)
    inside = lambda byte: any(h[5] & 1 and h[2] <= byte < h[2] + h[4] for h in present)
    if entry % 4 or not all(inside(entry + lane) for lane in range(4)):
        return 12
    return None

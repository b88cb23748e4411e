"""The first fault of an assembler source: its line and number, or None (docs/COMMANDS.md, `asm`)."""

import re

LIMIT = 2**20
TEXT, DATA = 0x10000, 0x80000
MOST_TEXT, MOST_DATA = 458752, 524288

NAMES = (
    "zero ra sp gp tp t0 t1 t2 s0 s1 a0 a1 a2 a3 a4 a5 a6 a7 "
    "s2 s3 s4 s5 s6 s7 s8 s9 s10 s11 t3 t4 t5 t6"
).split()
REGISTERS = {**{f"x{k}": k for k in range(32)}, **{name: k for k, name in enumerate(NAMES)}, "fp": 8}

THREE_REGISTERS = "add sub sll slt sltu xor srl sra or and mul mulh mulhsu mulhu div divu rem remu".split()
IMMEDIATES = "addi slti sltiu xori ori andi".split()
SHIFTS = "slli srli srai".split()
MEMORY = "lb lh lw lbu lhu sb sh sw jalr".split()
BRANCHES = "beq bne blt bge bltu bgeu".split()
ALONE = "fence ecall ebreak nop ret".split()

# the operands of each statement: r register, n number, l label, m number(register)
FORMS = {
    **{name: "rrr" for name in THREE_REGISTERS},
    **{name: "rrn" for name in IMMEDIATES + SHIFTS},
    **{name: "rm" for name in MEMORY},
    **{name: "rrl" for name in BRANCHES},
    **{name: "" for name in ALONE},
    **{name: "rn" for name in ("lui", "auipc", "li")},
    **{name: "rl" for name in ("jal", "la", "beqz", "bnez")},
    **{name: "l" for name in ("j", "call")},
    "jr": "r",
    "mv": "rr",
    ".text": "",
    ".data": "",
    ".word": "n",
    ".byte": "n",
    ".space": "n",
}

RANGES = {
    **{name: (-2048, 2047) for name in IMMEDIATES + MEMORY},
    **{name: (0, 31) for name in SHIFTS},
    "lui": (0, 0xFFFFF),
    "auipc": (0, 0xFFFFF),
    "li": (-(2**31), 2**32 - 1),
    ".word": (-(2**31), 2**32 - 1),
    ".byte": (-128, 255),
    ".space": (0, MOST_DATA),
}
REACHES = {**{name: 4096 for name in BRANCHES + ["beqz", "bnez"]}, **{name: 2**20 for name in ("jal", "j", "call")}}

LABEL = re.compile(r"[A-Za-z_.][A-Za-z0-9_.]*")
NUMBER = re.compile(r"-?[0-9]+|0x[0-9A-Fa-f]+")


class Fault(Exception):
    def __init__(self, cause):
        self.cause = cause


def value(word):
    """The number that a word spells; very long ones count as out of every range."""
    digits = word[2:] if word.startswith("0x") else word.lstrip("-")
    if len(digits.lstrip("0")) > 20:
        return 2**200
    return int(word, 16) if word.startswith("0x") else int(word)


def operand(kind, words):
    """Takes one operand from the front of the words."""
    if not words:
        raise Fault(3)
    word = words.pop(0)
    if kind == "r" and word in REGISTERS:
        return REGISTERS[word]
    if kind == "n" and NUMBER.fullmatch(word):
        return value(word)
    if kind == "l" and LABEL.fullmatch(word):
        return word
    if kind == "m" and NUMBER.fullmatch(word):
        if len(words) >= 3 and words[0] == "(" and words[1] in REGISTERS and words[2] == ")":
            del words[:3]
            return value(word)
    raise Fault(3)


def operands(form, words):
    found = []
    for k, kind in enumerate(form):
        if k > 0 and (not words or words.pop(0) != ","):
            raise Fault(3)
        found.append(operand(kind, words))
    if words:
        raise Fault(3)
    return found


def parse(line, in_data):
    """The label that a line defines, its statement and the operands."""
    if any(not (0x20 <= byte <= 0x7E or byte == 9) for byte in line):
        raise Fault(1)
    words = re.findall(r"[,:()]|[^\s,:()]+", line.decode("ascii").split("#")[0])
    label = None
    if len(words) >= 2 and words[1] == ":" and words[0] not in ",:()":
        label = words[0]
        if not LABEL.fullmatch(label):
            raise Fault(2)
        words = words[2:]
    if not words:
        return label, None, []
    name = words[0]
    if name not in FORMS:
        raise Fault(2)
    found = operands(FORMS[name], words[1:])
    if name not in (".text", ".data") and (name[0] == ".") != in_data:
        raise Fault(3)
    return label, name, found


def size(name, found):
    if name is None or name in (".text", ".data"):
        return 0
    if name == ".byte":
        return 1
    if name == ".space":
        return found[0] if 0 <= found[0] <= MOST_DATA else 0
    if name == "la" or (name == "li" and not -2048 <= found[1] <= 2047):
        return 8
    return 4


def lines_of(source):
    lines = source.split(b"\n")
    last = lines.pop()
    lines = [line[:-1] if line.endswith(b"\r") else line for line in lines]
    return lines + ([last] if last else [])


def first_fault(source):
    if len(source) > LIMIT:
        return 0, 7
    at, in_data, places, parsed = {False: TEXT, True: DATA}, False, {}, []
    for k, line in enumerate(lines_of(source), 1):
        here = at[in_data]
        try:
            label, name, found = parse(line, in_data)
        except Fault as fault:
            parsed.append((k, here, in_data, fault.cause, None, None, []))
            at[in_data] += 4
            continue
        parsed.append((k, here, in_data, None, label, name, found))
        if label is not None:
            places.setdefault(label, (k, here, in_data))
        at[in_data] += size(name, found)
        if name in (".text", ".data"):
            in_data = name == ".data"
    for entry in parsed:
        cause = cause_of(entry, places)
        if cause:
            return entry[0], cause
    text, data = at[False] - TEXT, at[True] - DATA
    if text == 0 or text > MOST_TEXT or data > MOST_DATA:
        return 0, 7
    return None


def cause_of(entry, places):
    """The least fault of a line."""
    k, here, in_data, cause, label, name, found = entry
    if cause:
        return cause
    target = found[-1] if name in FORMS and FORMS[name].endswith("l") else None
    if name in RANGES and not RANGES[name][0] <= found[-1] <= RANGES[name][1]:
        return 4
    if name in REACHES and target in places:
        offset = places[target][1] - here
        if offset % 2 or not -REACHES[name] <= offset <= REACHES[name] - 2:
            return 4
    if label == "_start" and places[label][0] == k and (in_data or here % 4):
        return 4
    if label is not None and places[label][0] != k:
        return 5
    if target is not None and target not in places:
        return 6
    return None

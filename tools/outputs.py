"""What the tools share: the answers of avf as values, each judged before it is used; wrong input ends a tool with status 1 and one line."""

import subprocess
import sys

NAMES = "pc npc bht btb ib idex exmem memwb rf sb port cdata ctag cvalid cdirty clru".split()
HEADING = ["structure", "bits", "cycles", "ace", "ppm"] + [f"U{k}" for k in range(1, 14)]
FIXED = {"pc": 30, "npc": 30, "bht": 128, "btb": 912, "ib": 256, "idex": 153, "exmem": 79, "memwb": 37, "rf": 992, "sb": 264, "port": 6}


def stop(tool, why):
    sys.stdout.flush()
    print(f"{tool}: {why}", file=sys.stderr)
    sys.exit(1)


def ended_by_pipe(main):
    """Runs a tool; where what it prints is read no further (`| head`), it ends quietly with status 7, as avf does."""
    try:
        main()
        sys.stdout.flush()
    except BrokenPipeError:
        sys.stderr.close()
        sys.exit(7)


def answer(tool, avf, words):
    """What avf writes, or its line and the end."""
    try:
        done = subprocess.run([avf, *words], capture_output=True, check=False)
    except OSError:
        stop(tool, f"can't run {avf}: it wants the path of the built program")
    if done.returncode:
        stop(tool, f"avf {' '.join(words)} ends with status {done.returncode}: {done.stderr.decode(errors='replace').strip()}")
    return done.stdout


def lines_of(tool, name, most=None):
    """The lines of a file, or the first of them."""
    try:
        with open(name, "rb") as file:
            text = file.read() if most is None else b"".join(file.readline(1 << 16) for _ in range(most))
    except OSError as error:
        stop(tool, f"{name}: {error.strerror}")
    if not text:
        stop(tool, f"{name} is empty: did avf end with a line on standard error?")
    return text.split(b"\n")[:-1] if text.endswith(b"\n") else text.split(b"\n")


def sizes_of(sets, ways):
    """The bits of each structure in a shape."""
    slots = sets * ways
    return FIXED | {"cdata": 128 * slots, "ctag": (28 - sets.bit_length() + 1) * slots, "cvalid": slots, "cdirty": slots, "clru": (ways - 1) * sets}


def read_csv(tool, lines, name="the table"):
    """The rows of `avf csv` as numbers by the names of its heading; each adds up."""
    lines = [line if isinstance(line, str) else line.decode(errors="replace") for line in lines]
    if not lines or lines[0].split(",") != HEADING:
        stop(tool, f"{name} is no output of `avf csv`: its first line isn't the heading")
    rows = []
    for number, line in enumerate(lines[1:], 2):
        cells = line.split(",")
        if len(cells) != len(HEADING) or not all(cell.isdecimal() for cell in cells[1:]):
            stop(tool, f"{name} is no whole output of `avf csv`: line {number}")
        row = {"structure": cells[0]} | {key: int(cell) for key, cell in zip(HEADING[1:], cells[1:])}
        if row["ace"] + sum(row[f"U{k}"] for k in range(1, 14)) != row["bits"] * row["cycles"]:
            stop(tool, f"{name} doesn't add up in line {number}")
        rows.append(row)
    if [row["structure"] for row in rows] != NAMES or len({row["cycles"] for row in rows}) != 1 or rows[0]["cycles"] == 0:
        stop(tool, f"{name} is no whole output of `avf csv`: it hasn't the sixteen structures of one run")
    return rows


def read_map(tool, lines, name="the map"):
    """The cycles of a map of `avf map`, and its lines."""
    if len(lines) < 3 or lines[0] != b"avf-map 1" or not lines[1].startswith(b"cycles "):
        stop(tool, f"{name} is no output of `avf map`: it doesn't begin with `avf-map 1` and `cycles`")
    try:
        cycles = int(lines[1][7:])
        parsed = []
        for line in lines[3:]:
            structure, bit, start, end, rule = line.split()
            parsed.append((structure.decode(), int(bit), int(start), int(end), int(rule[1:])))
    except ValueError:
        stop(tool, f"{name} is no output of `avf map`: a line is spelled otherwise")
    return cycles, parsed


# The groups of classes in pictures: name, colour, the rules.
GROUPS = [
    ("ACE", "#D55E00", []),
    ("masked (U5)", "#F0E442", [5]),
    ("dead, redirected (U6-U8)", "#009E73", [6, 7, 8]),
    ("clean or unaccessed lines (U9-U12)", "#56B4E9", [9, 10, 11, 12]),
    ("fetched again, wrong path (U3, U4)", "#0072B2", [3, 4]),
    ("timing, empty (U1, U2, U13)", "#DDDDDD", [1, 2, 13]),
]


def shares(row):
    """The share of a row's bit-cycles in each group, in percent."""
    pairs = row["bits"] * row["cycles"]
    counts = [row["ace"]] + [sum(row[f"U{rule}"] for rule in rules) for _, _, rules in GROUPS[1:]]
    return [100 * count / pairs if pairs else 0.0 for count in counts]


def total_of(rows):
    """The row of all structures together."""
    total = {key: sum(row[key] for row in rows) for key in HEADING[1:]}
    pairs = sum(row["bits"] * row["cycles"] for row in rows)
    return total | {"structure": "total", "cycles": pairs // total["bits"]}


def shape_of(tool, most, name="the map"):
    """The bits of each structure in the shape whose map has these highest bits: in cycle 0 each bit of the empty cache is un-ACE, and in the last
    each of its replacement bits, so that a whole map shows the shape."""
    slots, nodes = (most.get("cdata", -1) + 1) // 128, most.get("clru", -1) + 1
    sets = slots - nodes
    if sets not in (16, 32, 64, 128) or slots % sets or slots // sets not in (1, 2, 4):
        stop(tool, f"{name} is no whole output of `avf map`: it shows no shape of the cache")
    sizes = sizes_of(sets, slots // sets)
    for structure, bit in most.items():
        if bit >= sizes.get(structure, 0):
            stop(tool, f"{name} is no output of `avf map`: there is no bit {bit} of {structure}")
    return sets, slots // sets, sizes


SPELLING = """BEGIN { for (k = 1; k <= 13; k++) rule["U" k] }
NR == 2 { cycles = $2 + 0 }
NR < 4 { if (NR == 1 && $0 != "avf-map 1" || NR == 2 && $0 !~ /^cycles [1-9][0-9]*$/ || NR == 3 && $0 !~ /^instructions [0-9]+$/) exit; next }
NF != 5 || $3 + 0 >= $4 + 0 || $4 + 0 > cycles || !($5 in rule) { bad = NR; exit }
{ if (!($1 in most) || $2 + 0 > most[$1]) most[$1] = $2 + 0 }
END { if (bad) print "bad", bad; for (k in most) print k, most[k] }"""


def awk(*words):
    return subprocess.run(["awk", *words], capture_output=True, check=True, text=True, errors="replace").stdout


def first_lines(tool, name):
    """The cycles that a map names in its second line."""
    lines = lines_of(tool, name, 4)
    if lines[0] != b"avf-map 1" or len(lines) < 4 or not lines[1].startswith(b"cycles ") or not lines[1][7:].isdigit():
        stop(tool, f"{name} is no output of `avf map`: it doesn't begin with `avf-map 1` and `cycles`")
    return int(lines[1][7:])


def sizes_in(tool, name):
    """The sets, ways and sizes of the shape that a map shows, once each of its lines is judged."""
    most = {structure: int(bit) for structure, bit in map(str.split, awk(SPELLING, name).splitlines())}
    if "bad" in most:
        stop(tool, f"{name} is no output of `avf map`: line {most['bad']}")
    return shape_of(tool, most, name)


def draw(tool, script, picture):
    """Draws a picture by gnuplot; a failed one leaves none."""
    try:
        done = subprocess.run(["gnuplot"], input=script.encode(), capture_output=True, check=False)
    except FileNotFoundError:
        stop(tool, "no gnuplot: on Debian, apt-get install gnuplot-nox")
    said = [line.strip() for line in done.stderr.decode(errors="replace").splitlines() if line.strip(" ^") and "warning" not in line]
    if done.returncode or said:
        stop(tool, f"gnuplot doesn't draw {picture}: {said[-1] if said else ''}")


def quoted(text):
    return "'" + text.replace("'", "''") + "'"


def title_of(name):
    """The name of an image in a title, by that of its table or map."""
    return name.rsplit("/", 1)[-1].rsplit(".", 1)[0]


def grouped(number):
    return f"{number:,}"

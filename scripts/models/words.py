"""Which lists of words are commands (docs/COMMANDS.md)."""


def number(word, least, most):
    plain = word.isascii() and word.isdigit() and (word == "0" or word[0] != "0")
    return plain and least <= int(word) <= most


def budget(word):
    return number(word, 1, 1_000_000)


def place(words):
    return len(words) == 3 and words[0] != "" and all(number(w, 0, 2**32 - 1) for w in words[1:])


def nothing(words):
    return words == []


# what may stand behind IMAGE and BUDGET
TAILS = {
    "run": nothing,
    "dead": nothing,
    "report": nothing,
    "csv": nothing,
    "query": place,
    "flip": place,
    "campaign": lambda w: len(w) == 2 and number(w[0], 0, 2**64 - 1) and number(w[1], 1, 10_000),
    "map": nothing,
    "check": lambda w: len(w) == 1 and w[0] != "",
    "due": lambda w: len(w) == 1 and w[0] in ("rf", "cdata", "both"),
    "plan": lambda w: len(w) == 1 and number(w[0], 0, 2**32 - 1),
}


def shape(words):
    mib, sets, ways = words
    return number(mib, 1, 16) and sets in ("16", "32", "64", "128") and ways in ("1", "2", "4")


def bare(words, commands):
    """A command that may stand behind `with`."""
    if not words or words[0] not in commands:
        return False
    if words[0] == "bench":
        return len(words) == 3 and number(words[1], 0, 2**64 - 1) and number(words[2], 1, 4096)
    return len(words) >= 3 and words[1] != "" and budget(words[2]) and TAILS[words[0]](words[3:])


def command(words, commands):
    """Whether the words are one of these commands with its arguments."""
    if words[:1] == ["with"]:
        return len(words) >= 5 and shape(words[1:4]) and bare(words[4:], commands)
    if words[:1] == ["asm"]:
        return len(words) == 2 and words[1] != ""
    return bare(words, commands)

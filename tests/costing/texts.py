"""Texts of assertions that cost much: to read, to enter, to evaluate. All are of bytes, spelled by latin-1."""

import functools
import string

ASSERTION_BYTES, LIVE, LIVE_BYTES = 16384, 4096, 8388608
PRIVATE, PRIVATE_BYTES = 64, 262144
VALUE_BYTES, PRINCIPAL_BYTES, ATTRIBUTES, REQUESTERS = 4096, 4096, 256, 64
LETTERS = string.ascii_letters + "0123456789"


@functools.lru_cache(maxsize=1 << 20)
def name_of(number, width=4):
    """A name of letters for each number."""
    made = ""
    for _ in range(width):
        number, at = divmod(number, len(LETTERS))
        made += LETTERS[at]
    return made


def attribute_of(number):
    """A name that begins with a letter for each number."""
    return "n" + name_of(number, 2)


def assertion(authorizer, licensees, rest="", front=""):
    return f'{front}Authorizer: "{authorizer}"\nLicensees: {licensees}\n{rest}'


def repeat(unit, room):
    return unit * max(0, room // len(unit))


def numbered(unit_of, room):
    """Units by their numbers, as many as there is room for."""
    made, used, number = [], 0, 0
    while used + len(unit := unit_of(number)) <= room:
        made.append(unit)
        used, number = used + len(unit), number + 1
    return "".join(made)


# -- conditions

# tests of a style with so many parts: the text `v` is an attribute's value of 4,096 bytes
TESTS = {
    "number": lambda parts: f"@({joined(parts)})==1;",
    "name": lambda parts: f'$({joined(parts)})=="";',
    "join": lambda parts: f'{joined(parts)}=="";',
    "equal": lambda parts: f"{joined(parts)}!={joined(parts)};",
    "before": lambda parts: f"{joined(parts)}<{joined(parts)};",
    "signs": lambda parts: f'{"$" * min(parts, 8)}v=="";',
    "sums": lambda parts: f"0{'+1' * parts}<0;",
    "powers": lambda parts: f"1{'^2147483647' * parts}<0;",
    "constant": lambda parts: 'zz=="";',
    "values": lambda parts: f'true->"{value_name(0)}";',
    "braces": lambda parts: f"{'true->{' * min(parts, 60)}v==\"\";{'}' * min(parts, 60)};",
}
STYLES = list(TESTS)
PARTS = [16, 15, 12, 8, 4, 2, 1]


def joined(parts):
    return ".".join("v" * parts)


def value_of(style):
    """What `v` is: digits that are read to their end, or a text that is a name."""
    return ("0" if style == "number" else "x") * VALUE_BYTES


def value_name(number):
    """One of 64 names of values that fit into a line, as long as can be, which differ at their ends."""
    return "v" * 124 + name_of(number, 2)


VALUES = ",".join(value_name(number) for number in range(64))


def conditions(style, parts, room):
    return f"Conditions: {repeat(TESTS[style](parts), room - len('Conditions: true;') - 1)}true;\n"


def slow_assertion(authorizer, licensees, style, parts, each):
    """An assertion of at most so many bytes, most of which are tests of a style, or half where it wants constants."""
    front = constants(each // 2) if style == "constant" else ""
    text = assertion(authorizer, licensees, "", front)
    return text + conditions(style, parts, each - len(text))


def constants(room, value=""):
    units = numbered(lambda number: f'{attribute_of(number)}="{value}"', room - len("Local-Constants: \n"))
    return f"Local-Constants: {units}\n"


# -- texts that are slow to read

def by_constants(room):
    text = assertion("a", '"b"')
    return constants(room - len(text)) + text


def by_names(room):
    """Half of it constants, and half licensees that name the last one of them; a short one is longer than it should be."""
    front = constants(max(room // 2, 64), "p")
    last = front.rsplit('"p"', 2)[1].split("=")[0]
    text = f'{front}Authorizer: "a"\nLicensees: {last}'
    return text + repeat(f"||{last}", room - len(text) - 1) + "\n"


def by_brackets(room):
    text = assertion("a", '"b"')
    deep = f'||{"(" * 63}"a"{")" * 63}'
    return text[:-1] + repeat(deep, room - len(text)) + "\n"


def by_conditions(unit):
    front = assertion("a", '"b"', "Conditions: ")
    return lambda room: f"{front}{repeat(unit, room - len(front) - 1)}\n"


def by_licensees(sign):
    def make(room):
        text = assertion("a", '"b"')
        return text[:-1] + repeat(f'{sign}"a"', room - len(text)) + "\n"
    return make


def by_threshold(room):
    text = assertion("a", '1-of("b")')
    return text[:-2] + repeat(',"a"', room - len(text)) + ")\n"


def by_comment(unit):
    def make(room):
        text = assertion("a", '"b"')
        return f"Comment: {repeat(unit, room - len(text) - len('Comment: ') - 1)}\n{text}"
    return make


def by_principals(room):
    text = assertion("a", '"b"')
    name = "RSA-HEX:" + "A" * (PRINCIPAL_BYTES - 8)
    return text[:-1] + repeat(f'||"{name}"', room - len(text)) + "\n"


def by_escapes(room):
    text = assertion("a", '"b"')
    return f'Local-Constants: A="{repeat(chr(92) + "101", room - len(text) - 24)}"\n{text}'


READ = {
    "constants": by_constants, "names": by_names, "brackets": by_brackets, "parts": by_licensees("||"),
    "both": by_licensees("&&"), "threshold": by_threshold, "principals": by_principals, "escapes": by_escapes,
    "clauses": by_conditions("true;"), "sums": by_conditions("1+1<1;"), "signs": by_conditions("!!!!!!!!true;"),
    "texts": by_conditions('""<"";'), "semicolons": by_conditions(";"), "comment": by_comment("x"),
    "comments": by_comment("x\n#"), "quotes": by_comment('x\n "'),
}

# what makes a text faulty at its end: a line without the label of a field, one whose field is there already, a byte
# where nothing begins, a literal that isn't closed, and a token more in the last field
FAULTS = {"label": 'Foo: "x"\n', "twice": 'Authorizer: "c"\n', "byte": " ?\n", "open": ' "x\n', "more": ' "x"\n'}


def faulty(style, fault, room):
    return READ[style](room - len(FAULTS[fault])) + FAULTS[fault]

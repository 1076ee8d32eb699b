"""The words and forms by which `lint` tells what a text or a name is: an address, a date, a kind, a person."""

from __future__ import annotations

import re

NULLS = {b"null", b"nil", b"none", b"undefined", b"nothing", b"empty", b"unset"}
ALGORITHM = re.compile(rb"alg|enc|auth|cipher|hash|comp|prf|mode", re.I)

# forms of texts
NUMERIC = re.compile(rb"-?[0-9]+(?:\.[0-9]+)?")
HOUR = re.compile(rb"[0-9](?::[0-9]{2}){1,2}")
ADDRESS = re.compile(rb"(?:[0-9]{1,3}\.){3}[0-9]{1,3}")
PADDED = re.compile(rb"(?:[0-9]{3}\.){3}[0-9]{3}|0[0-9]+")
DATE = re.compile(rb"(?:19|20|21)[0-9]{2}(?:0[1-9]|1[0-2])(?:0[1-9]|[12][0-9]|3[01])(?:[0-9]{4}|[0-9]{6})?")
DATED = re.compile(  # dates whose bytes aren't in the order of days
    rb"[0-9]{1,2}[./][0-9]{1,2}[./](?:[0-9]{2}){1,2}|[0-9]{4}-(?:[0-9]-[0-9]{1,2}|[0-9]{2}-[0-9])"
)
VERSION = re.compile(rb"v?[0-9]+(?:\.[0-9]+){2,}")
MEASURE = re.compile(rb"([0-9]+) ?(?:[kKMGT]i?B?|B|%|EUR|USD|CHF|ms|s|min|h|d|bits?|bytes)")
PATTERN = re.compile(
    rb"^\^|[])*+]\$$|\[(?:[a-zA-Z]-[a-zA-Z]|[0-9]-[0-9]|\^)[^]]*\]|\.\+$|\\[dws][+{]|^%[^ ]+|[^ 0-9]%$"
    rb"|\{[0-9]+,[0-9]*\}"
)
NETWORK = re.compile(
    rb"(?:[0-9]{1,3}\.){3}[0-9]{1,3}/[0-9]{1,3}(?:\.[0-9.]+)?|[0-9a-fA-F:]*::?[0-9a-fA-F:]*/[0-9]{1,3}"
)
RANGE = re.compile(
    rb"(?:[0-9]{1,3}\.){3}[0-9]{1,3} ?- ?(?:[0-9]{1,3}\.){0,3}[0-9]{1,3}|(?:[0-9]{1,3}\.){1,3}(?:[xX](?:\.[xX])*)?"
)
SPAN = re.compile(rb"[0-9]+ ?(?:-|\.\.|to) ?[0-9]+")
LIST = re.compile(
    rb"[A-Za-z0-9_-]+(?: ?[,|;] ?[A-Za-z0-9_-]+)+|[A-Za-z0-9_/.-]+(?: ?\|\|? ?[A-Za-z0-9_/.-]+)+"
)

# forms of attributes' names
NETS = re.compile(rb"net|filter|range|cidr|prefix|route|mask|zone|block|pool|scope", re.I)
HOSTS = re.compile(
    rb"(?:^|_)(?:ip|addr|address|host|peer|client|src|source|remote|from|dst|dest|destination|sender|origin)"
    rb"(?:$|_|ip|addr)", re.I
)
COUNTED = re.compile(
    rb"(?:^|_)(?:port|hour|day|week|month|minute|age|level|amount|size|number|count|year)s?$", re.I
)
COUNTER = re.compile(  # what counts from 0, so that one that isn't set is right
    rb"fail|attempt|error|tries|retry|retries|count|used|strike|warning|queued|pending|open|debt|balance"
)

# words whose order isn't that of their bytes
RANKS = set(b"""low medium high critical public internal confidential secret guest user admin junior senior monday
    tuesday wednesday thursday friday saturday sunday january february march april june july august september october
    november december""".split()) | {b"top secret"}
# attributes whose values are words of a short list, those that hold another's name, and names for what is wanted
KINDS = set(b"""action verb method operation op command role group department dept division team state status protocol
    proto colour color app_domain class type kind mode stage environment env branch region country zone currency unit
    room door gate day weekday service share database direction cipher section ward format app access permission
    function position rank shift channel user_group job task queue site building priority severity language encoding
    classification sensitivity category right privilege request event product table""".split())
HOLDERS = set(b"""user owner author requester requestor creator reviewer approver subject principal account customer
    client sender recipient manager name username""".split())
HOLDING = set(b"""wanted needed required requested allowed expected assigned permitted booked home own base default
    current target origin source other same last first my new old previous given local remote day today hour date
    from to""".split())
# principals that are taken for all, and those who are given the highest value
EVERYBODY = {b"any", b"anyone", b"anybody", b"everyone", b"everybody", b"all"}
OWNERS = {b"owner", b"admin", b"administrator", b"root", b"superuser", b"chief", b"manager", b"master", b"operator"}

# what comments say of groups and of the order of clauses
NUMBERS = {"one": 1, "two": 2, "three": 3, "four": 4, "five": 5, "six": 6, "seven": 7, "eight": 8, "nine": 9}
COUNT = r"(one|two|three|four|five|six|seven|eight|nine|[1-9])"
OF = re.compile(rf"(?i)\b{COUNT} (?:people |members )?(?:out )?of (?:the |these |them |our |all )?{COUNT}\b")
ALONE = re.compile(
    r"(?i)\b(?:each|either|any|every one|both)\b[^.;]*"
    r"\b(?:alone|on (?:his|her|its|their) own|by (?:him|her|it)self)\b"
    r"|\beither of (?:them|the two)\b|\b(?:one|either) of (?:them|the two) is enough\b|\beach is enough\b"
)
TOGETHER = re.compile(
    r"(?i)\b(?:only|must|have to|has to|may only|need to) (?:both )?\w* ?(?:together|jointly)\b"
    r"|\bfour[- ]eyes\b|\b(?:both must|both have to|both are needed|two[- ](?:person|man) rule)\b"
)
NOT = re.compile(
    r"(?i)\b(?:not|no|nobody|none|nothing|neither|never|without|isn't|aren't|can't|unless|refused|too little)\b"
)
FIRST = re.compile(
    r"(?i)\bfirst[- ]match"
    r"|\bfirst (?:rule|clause|line|test)\b[^.;]*\b(?:decides|wins|counts|applies|holds|matches|fits)\b"
)

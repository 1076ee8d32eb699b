"""Tests of what lint names: policies with one mistake each, those without one, and near misses of each rule."""

import os
import re
import subprocess

from keynoted import linting
from tests_room import HERE, POLICY, PROGRAM, Room


def cases_of(name):
    """The cases of a file of lint_cases: name, rule, line, policy, requests, key file and its mode."""
    with open(os.path.join(HERE, "lint_cases", name), encoding="utf-8") as file:
        parts = re.split(r"^=== ", file.read(), flags=re.M)[1:]
    for part in parts:
        head, _, body = part.partition("\n")
        title, _, wanted = head.partition(": ")
        rule, _, line = wanted.partition(" ")
        policy, *more = re.split(r"^--- (.*)\n", body, flags=re.M)
        heads, texts = more[::2], [it.rstrip("\n") + "\n" for it in more[1::2]]
        sections = {head.split()[0]: (head.split()[1:], text) for head, text in zip(heads, texts)}
        script, (mode, keys) = sections.get("requests", ([], ""))[1], sections.get("keys", ([], ""))
        yield title, rule, line, policy.strip("\n") + "\n", script, keys, int((mode or ["600"])[0], 8)


class LintCases(Room):
    def findings(self, policy, script, keys, mode):
        """What lint finds in the files of a case, which the program takes."""
        self.write("policy.kn", policy.encode())
        self.write("script", script.encode())
        if os.path.exists("keys"):
            os.remove("keys")
        if keys:
            self.write("keys", keys.encode())
            os.chmod("keys", mode)
        words = [PROGRAM, "ask", "policy.kn"] + (["keys"] if keys else [])
        run = subprocess.run(words, input=script.encode(), stdout=subprocess.PIPE)
        self.assertEqual((run.returncode, re.findall(rb"^(?:NO|error) .*", run.stdout, re.M)), (0, []), policy)
        name = "policy.kn" if policy.strip() else None
        return linting.findings(name, ["script"] if script else [], "keys" if keys else None, PROGRAM)

    def test_mistakes_are_named(self):
        # who_may_edit says what as many policies mean that are so written
        for file, passed in (("wrong.txt", ["who_may_edit"]), ("wrong_more.txt", [])):
            missed, count = [], 0
            for title, rule, line, *files in cases_of(file):
                count += 1
                found = [] if rule == "refused" else self.findings(*files)
                if rule != "refused" and not any((it.rule, it.place.split(":")[1]) == (rule, line) for it in found):
                    missed.append((title, found))
            self.assertEqual((count, [title for title, _ in missed]), (40, passed), missed)

    def test_nothing_is_said_of_what_is_right(self):
        for file in ("right.txt", "right_more.txt"):
            count = 0
            for title, _, _, *files in cases_of(file):
                self.assertEqual(self.findings(*files), [], title)
                count += 1
                self.write("policy.kn", files[0].replace("\n", "\r\n").encode())
                self.assertEqual(linting.findings("policy.kn", ["script"] if files[1] else []), [], title)
            self.assertEqual(count, 20)

    def test_a_key_file_alone(self):
        for title, rule, line, policy, _, keys, mode in cases_of("wrong_more.txt"):
            if not keys:
                continue
            self.write("alone", keys.encode())
            os.chmod("alone", mode)
            status, out, errors = self.command("lint", "--keys", "alone")
            told, wanted = (errors, 2) if rule == "refused" else (out, 1)
            self.assertEqual((status, told.split(":")[:2]), (wanted, ["alone", line]), title)
        self.assertEqual(self.command("lint", "--keys", "keys")[0], 1)  # it is short
        self.assertEqual(self.command("lint")[0], 2)


class Linting(Room):
    def rules(self, policy, script="", program=None):
        self.write("policy.kn", policy.encode())
        self.write("script", script.encode())
        return [it.rule for it in linting.findings("policy.kn", ["script"] if script else [], None, program)]

    def conditions(self, text, script="", program=None):
        return self.rules(f'Authorizer: "POLICY"\nLicensees: "alice"\nConditions: {text}\n', script, program)


class Rules(Linting):
    def test_of_conditions(self):
        for text, wanted in (
            ('size > "1000000"', ["numbers"]), ('"-5" < balance', ["numbers"]), ('load < "0.75"', ["numbers"]),
            ('time >= "8:30"', ["numbers"]),
            ('addr >= "10.0.0.1"', ["numbers"]), ('n > "5000000000"', ["numbers"]), ('$name >= "9"', ["numbers"]),
            ('(a . b) < "10"', ["numbers"]),
            ('time >= "08:30"', []), ('day < "20270101"', []), ('t >= "0900" && t < "1700"', []),
            ('grade <= "B"', []), ('@n >= 10', []), ('n == "10"', []),
            ('true; x == "1" -> "yes"', ["never"]), ('x == "1"; x == "1" && y == "2" -> "yes"', ["never"]),
            ('x == "1" -> {}', ["never"]),
            ('x == "1" || y == "2"; x == "1"', ["never"]), ('x != "1" || x != "2"', ["never"]),
            ('@h < 8 && @h > 18', ["never"]),
            ('@h >= 8 || @h < 18', ["never"]), ('x == "1" && x != "1"', ["never"]), ('1 == 2', ["never"]),
            ('"a" == "a"', ["never"]),
            ('!(x == "1" && x == "2")', ["never"]), ('1/@x == 2 || true', []), ('@h >= 8 && @h < 18', []),
            ('x == "1" -> "log"; true -> "ask"', []),
            ('x == "1" -> "read"; true -> "write"', ["never"]), ('x == "1" -> "write"; true -> "read"', []),
            ('x == "1"; x == "1"', ["never"]),
            ('x == "1" -> { y == "1" -> "a"; true -> "b"; }', []), ('x == "1" -> "block"', ["deny"]),
            ('true -> "deny"', ["deny"]),
            ('x == "1" -> "yes"; true -> "no"', []), ('x == NULL', ["null"]), ('nil != x', ["null"]),
            ('x == "undefined"', ["null"]), ('cipher == "null"', []),
            ('x == ""', []), ('file == "*.txt"', ["wildcard"]), ('"any" == verb', ["wildcard"]), ('@a * @b > 3', []),
            ('scope == "all"', []),
            ('a == "1" && b == "2" || c == "3"', []), ('a == "1" || b == "2" && c == "3"', []),
            ('(a == "1" && b == "2") || c == "3"', []), ('a == "1" && (b == "2" || c == "3")', []),
            (r'dir == "C:\\temp"', []), (r'dir == "C:\temp"', ["escape"]), (r'who == "CORP\nora"', ["escape"]),
            (r'dir == "\\\\host\tools"', []),
            (r'dir == "\\host\tools"', ["escape"]), (r'x == "a\.b"', ["escape"]), (r'x == "a\n"', []),
            (r'x == "OK\n"', []), (r'x == "\101"', []), (r'x == "\9"', ["escape"]),
        ):
            self.assertEqual(self.conditions(text), wanted, text)

    def test_of_conditions_with_a_script(self):
        script = "OPEN\nAUTH 1 alice\nSET 1 x 9\nSET 1 y 10\nQUERY 1 refuse,some,full\n"
        for text, wanted in (
            ('x == "1" -> "some"; true -> "full"', ["never"]), ('x == "1" -> "full"; true -> "some"', []),
            ('x == "1" -> "refuse"', ["deny"]),
            ("x < y", ["numbers"]), ('y >= "10"', ["numbers"]), ('x > "09"', ["numbers"]), ('z == "1"', []),
            ('X == "1"', ["unset"]), ('x == "9" -> "other"', ["value"]),
        ):
            self.assertEqual(self.conditions(text, script), wanted, text)

    def test_of_licensees_and_constants(self):
        for text, wanted in (
            ('Licensees: 2-of("a", "b" || "a", "c")', ["repeated"]),
            ('Licensees: 2-of("a" && "b", "b" && "c", "a" && "c")', []),
            ('Licensees: "a" || "b" || "a"', ["repeated"]), ('Licensees: ("a" && "b") || ("a" && "c")', []),
            ('Licensees: "everyone"', ["wildcard"]),
            ('Licensees: "user-*"', ["wildcard"]), ('Licensees: "CN=\\"x\\""', []),
            ('Licensees: "\\"x\\""', ["quotes"]), (r'Licensees: "a\tb"', ["escape"]),
            ('Local-Constants: h = "9"\nLicensees: "a"\nConditions: @h >= 8;', ["hidden"]),
            ('Local-Constants: h = "9"\nLicensees: "a"\nConditions: x == h;', []),
            ('Licensees: "a"\nConditions:', []), ('Conditions: x == "1";', ["licensees"]),
            ("Licensees: \"a\"\nSignature: \"x\"", ["signature"]),
        ):
            self.assertEqual(self.rules(f'Authorizer: "POLICY"\n{text}\n'), wanted, text)

    def test_of_several_assertions(self):
        one = 'Authorizer: "POLICY"\nLicensees: "a" || "b"\nConditions: role == "x";\n'
        same = '# again\nlicensees: B || "a"\nLocal-Constants: B = "b"\nauthorizer: POLICY\nconditions: role == "x"\n'
        hiding = 'Local-Constants: role = "x"\nAuthorizer: "POLICY"\nLicensees: "c"\nConditions: y == role;\n'
        self.assertEqual(self.rules(one + "\n" + same), ["duplicate"])
        self.assertEqual(self.rules(one + "\n" + hiding), ["hidden"])
        self.assertEqual(self.rules(hiding), [])

    def test_a_stranger_in_a_script_is_a_test(self):
        script = "OPEN\nAUTH 1 alice\nAUTH 1 mallory\nQUERY 1 no,yes\n"
        self.assertEqual(self.rules(POLICY.decode(), script), [])
        self.assertEqual(self.rules(POLICY.decode(), script.replace("mallory", "Alice")), ["requester"])
        self.assertEqual(self.rules(POLICY.decode(), script.replace("alice", "bob")), ["requester"] * 2)


class NearMisses(Linting):
    """Each rule with what it names, and with good policies that come near it."""

    def both(self, rule, wrong, right):
        """Conditions that a rule names, alone, and conditions of which nothing is said."""
        for text in wrong:
            self.assertEqual(self.conditions(text), [rule], text)
        for text in right:
            self.assertEqual(self.conditions(text), [], text)

    def test_texts_without_quotes(self):
        self.both("bare", ("role == admin", "user_role != guest", 'dept == "it"; dept == sales', "GET == method"),
                  ("owner == user", "role == required_role", "region == home", "author != reviewer", "state == last_state",
                   'role == lead && lead != ""', "src_zone == dst_zone"))

    def test_networks_ranges_and_lists(self):
        self.both("network", ('client_ip == "10.0.0.0/8"', 'peer == "2001:db8::/32"', 'ip == "10.1."'),
                  ('net == "10.0.0.0/8"', 'src_net == "10.1.0.0/16"', 'remote_filter == "10.0.0.0-10.0.255.255"', 'ip == "10.1.2.3"'))
        self.both("list", ('dst_port == "1024-65535"', 'action == "read,write"', 'host == "a || b"', 'verb == "get|put"'),
                  ('pages == "3-7"', 'name == "Smith, John"', 'type == "text/html;charset=utf-8"', 'cn == "CN=a,OU=b"'))

    def test_patterns_and_spaces(self):
        self.both("wildcard", ('path == "^/a/.*"', 'file == "[a-z]+"', 'file == "%.pdf"', 'id == "[0-9]{2,4}"', 'x == "a.+"'),
                  ('share == "print$"', 'discount == "50%"', 'note == "50 % off"', 'x == "C++"', 'url == "a?b=c"', r'u == "X\\dora"'))
        self.both("spaces", ('action == "read "', 'action == " read"'), ('x == " "', r'x == "a\n"', '"a " . x == "a b"'))

    def test_orders_of_texts(self):
        self.both("numbers", ('level >= "high"', 'day >= "monday"', 'size <= "10MB"', 'date < "31.12.2026"', 'day < "2026-1-5"',
                              'version >= "1.10.2"'),
                  ('grade <= "B"', 'name < "m"', 'today < "2026-12-31"', 'code >= "A100"', 'level == "high"', 'size == "10MB"'))

    def test_numbers(self):
        self.both("range", ("@a < 3 * 1024 * 1024 * 1024", "@a < 2 ^ 31", '@a < @"5000000000"', "1 / 0 == @a"),
                  ("@a < 2 ^ 30", "@a < 2147483647", "@a * 65536 < 2147483647", "-2147483647 - 1 < @a", "@a / @b < 1"))
        self.both("division", ("@a / @b * 100 < 90", "100 * (@a / @b) < 90", "@a / 1024 * 100 < 5", "@a * (1 / 2) < 5"),
                  ("@a * 100 / @b < 90", "@a / 1024 / 1024 < 5", "(@a + 7) / 8 * 8 == @a", "@a / @b >= 2", "@a / 3 * 2 < @b"))
        self.both("reading", ('@"hour" >= 8', '@"5,000" > @a'), ('@"5000" > @a', '@"-1" < @a', '@$("a" . b) > 1'))
        self.both("never", ("@week % 2 == 2",), ("@week % 2 == 1", "@week % 10 != 10"))

    def test_dots_and_dollars(self):
        self.both("dot", ('user.name == "bob"', '"/a" == request.path'),
                  ('a . b == "x"', 'a . "." . b == "x.y"', 'year.month == "202612"', 'a.b == c'))
        self.both("dollar", ('$user == "bob"', '"read" == $action'), ('$("user") == "bob"', '$field == "x"', '$("a_" . user) == "x"'))
        script = "OPEN\nAUTH 1 alice\nSET 1 first ann\nSET 1 last lee\nQUERY 1 no,yes\n"
        self.assertEqual(self.conditions('first.last == "annlee"', script), [])
        self.assertEqual(self.conditions('first.last == "leeann"', script), ["dot"])

    def test_parts_of_tests(self):
        self.both("never", ('a == "1" && (b != "x" || b != "y")', 'a == "1" || (@h > 20 && @h < 6)', "a == a",
                            'a == "1" -> { a == "2" -> "yes"; b == "1" -> "yes"; }', '!(d == "1") || !(d == "2")'),
                  ('a == "1" && (b != "x" && b != "y")', 'a == "1" && (@h > 20 || @h < 6)', 'a == b',
                   'a != "1" -> { a == "2" -> "yes"; b == "1" -> "yes"; }', '!(d == "1" || d == "2")'))

    def test_and_beside_or(self):
        line = "\n            "
        self.both("brackets", (
            'b == "x" && a == "r" || a == "w"', 'b == "x" && a == "r" || a == "w" || a == "q"',
            'b == "x" && a == "r" || a == "w" || a == "q" && c == "y"', 'd == "1" || b == "x" && a == "r" || a == "w"',
            'b == "x" -> { c == "y" && a == "r" || a == "w" -> "yes"; }', '!(b == "x" && a == "r" || a == "w")',
            'app_domain == "x" && a == "1" || b == "2"', 'a == "1" || b == "2" && app_domain == "x"',
            'app_domain == "x" && a == "1" || a == "2" && b == "3"',
            f'a == "r" || a == "w"{line}&& b == "x"', f'a == "r" || a == "w" &&{line}b == "x"',
            f'b == "x" &&{line}c == "1" || d == "2"', f'b == "x"{line}&& c == "1" || d == "2"{line}&& e == "3"',
            f'b == "x" &&{line}    c == "1" || d == "2"', f'b == "x" &&{line}a == "r" ||{line}a == "w"',
        ), (
            'a == "r" || a == "w" && b == "x"', 'a == "r" || a == "q" || a == "w" && b == "x"',
            'a == "r" || b == "w" && c == "x"', 'b == "x" && a == "r" || c == "w"', '@h >= 8 && @h < 18 || @h == 20',
            'a == "1" && b == "x" || a == "2" && c == "y"', 'b == "x" && a == "r" || a == "w" && c == "y"',
            '(a == "r" || a == "w") && b == "x"', '(a == "r" || a == "w") && b == "x" || c == "x" && d == "r" || d == "w"',
            f'b == "x" && a == "r" ||{line}a == "w"', f'b == "x" && a == "r"{line}|| a == "w"',
            f'b == "x" &&{line}    a == "r" ||{line}a == "w"', f'a == "w" ||{line}a == "r"{line}    && b == "x"',
            f'a == "r" || a == "w"{line}    && b == "x"', 'b=="x"&&a=="r" || a=="w"',
            f'b == "x" && a == "r" ||{line}app_domain == "w" && c == "y"',
            'app_domain == "x" && a == "1" || app_domain == "y"', 'app_domain == "x" || b == "2" && app_domain == "y"',
            f'a == "r" &&{line}@n < 5 || a == "w"', f'a == "r" && b == "1" || b == "2" &&{line}a == "r"',
        ))

    def test_and_beside_or_of_licensees(self):
        line = "\n           "
        for text, wanted in (
            ('"a" && "b" || "c"', ["brackets"]), ('"a" && "b" && "c" || "d"', ["brackets"]),
            ('2-of("a" && "b" || "c", "d")', ["brackets"]), (f'"a" &&{line}"b" || "c"', ["brackets"]),
            (f'"a" || "b" &&{line}"c"', ["brackets"]), ('"a" || "b" && "c"', []), ('"a" && "b" || "c" && "d"', []),
            (f'"a" && "b" ||{line}"c"', []), (f'"a" ||{line}"b" && "c"', []), ('("a" && "b") || "c"', []),
            ('"a"&&"b" || "c"', []), ('"a" && ("b" || "c") || "d" && "e" || "f"', []),
        ):
            self.assertEqual(self.rules(f'Authorizer: "POLICY"\nLicensees: {text}\n'), wanted, text)

    def test_domains(self):
        self.both("domain", ('app_domain == "x"; a == "1" -> "yes"', 'app_domain == "x" -> { a == "1" -> "log"; }; b == "2" -> "yes"'),
                  ('app_domain == "x"; app_domain == "y" && a == "1" -> "yes"', 'app_domain == "x" -> "yes"; true -> "no"',
                   'a == "1" -> { app_domain == "x" -> "log"; }; app_domain == "y" -> "yes"'))
        one, two = ('Authorizer: "POLICY"\nLicensees: "%s"\nConditions: app_domain == "x" && a == "%s";\n\n' % it for it in (("a", 1), ("b", 2)))
        three = 'Authorizer: "POLICY"\nLicensees: "c"\nConditions: a == "3";\n'
        self.assertEqual(self.rules(one + two + three), ["domain"])
        self.assertEqual(self.rules(one + three), [])
        self.assertEqual(self.rules(one + two + three + '\nAuthorizer: "c"\nLicensees: "d"\n'), [])
        self.assertEqual(self.rules(one + two + three.split("Conditions")[0]), [])

    def test_values_and_their_order(self):
        order = "# Values, the lowest first: none, read, write, admin\n"
        for conditions, wanted in (
            ('a == "1" -> "write"; b == "1"', ["valueless"]), ('a == "1" -> "write"; b == "1" -> "raed"', ["value"]),
            ('a == "1" -> "admin"; b == "1"', []), ('a == "1" -> "write"; b == "owner"', []), ('b == "1"', []),
            ('a == "1" -> "read"; b == "1" -> "audit"', []),
        ):
            self.assertEqual(self.rules(f'{order}Authorizer: "POLICY"\nLicensees: "a"\nConditions: {conditions}\n'), wanted, conditions)
        self.both("value", ('a == "1" -> "write"; a == "2" -> "wirte"; b == "2" -> "write"', 'a == "1" -> "_MAX_TRUST"'),
                  ('a == "1" -> "read"; a == "2" -> "reads"', 'a == "1" -> "level1"; a == "2" -> "level2"', "a == \"1\" -> _MAX_TRUST"))
        first = 'Comment: %s\nAuthorizer: "POLICY"\nLicensees: "a"\nConditions: a == "1" -> "read"; b == "1" -> "write"\n'
        self.assertEqual(self.rules(first % "the first match decides"), ["order"])
        self.assertEqual(self.rules(first % "the first floor, and the match on sunday"), [])
        self.assertEqual(self.rules(first % "what holds first of all"), [])

    def test_words_that_are_nearly_others(self):
        self.both("text", ('a == "delete" && b == "1"; a == "delete" && b == "2"; a == "delte" && b == "3"',),
                  ('d == "door"; d == "doors" && a == "1"; d == "door" && b == "1" -> "x"'.replace('d == "door"; ', ""),
                   'k == "hmac-sha1"; k == "hmac-sha2"', 'd == "north"; d == "south"', 'd == "in"; d == "on"'))
        self.both("unset", ('role == "a" && b == "1"; role == "b" && b == "2"; Role == "c" && b == "3"',
                            'app_domain == "x" && a == "1"; app_domain == "x" && a == "2"; app_domian == "x" && a == "3"'.replace(
                                "app_domain", "department").replace("app_domian", "departmnet")),
                  ('source == "a" && sources == "b" && source != "c"', 'size_a == "1" && size_b == "1" && size_a != b',
                   'src_port == "1" && dst_port == "1" && src_port != a'))
        constants = 'Local-Constants: LIMIT = "5"\nAuthorizer: "POLICY"\nLicensees: "a"\nConditions: '
        self.assertEqual(self.rules(constants + "@a < @LIMT\n"), ["unset"])
        self.assertEqual(self.rules(constants + "@limit < @LIMIT\n"), [])
        self.assertEqual(self.rules(constants + '@a < @LIMIT && kind == "LIMIT"\n'), ["quoted"])
        self.assertEqual(self.rules(constants.replace("LIMIT", "limit") + '@a < @limit && kind == "limit"\n'), [])

    def test_who_is_licensed(self):
        for text, wanted in (
            ('"anna, ben, carla"', ["list"]), ('"anna || ben"', ["list"]), ('"anna,ben"', ["list"]), ('"Smith, John"', []),
            ('"CN=Ann, OU=Sales"', []), ('"head of sales, north"', []), ('"ann "', ["spaces"]), ('"ann lee"', []),
            ('"rsa-hex:10zz"', ["hex"]), ('"rsa-hex:10AF"', []), ('"badge:10zz"', []), ('"\u0430nna"', ["letters"]),
            ('"\u0430\u043d\u043d\u0430"', []), ('"J\u00fcrgens"', []), ('"a\u00a0b"', ["letters"]),
        ):
            self.assertEqual(self.rules(f'Authorizer: "POLICY"\nLicensees: {text}\n'), wanted, text)

    def test_what_comments_say(self):
        for said, licensees, wanted in (
            ("each of them alone", '"a" && "b"', ["said"]), ("either of them may", '"a" && "b"', ["said"]),
            ("neither of them alone", '"a" && "b"', []), ("together, and not each alone", '"a" && "b"', []),
            ("each of them alone", '"a" || "b"', []), ("both must sign", '"a" || "b"', ["said"]),
            ("both may, and need not sign together", '"a" || "b"', []), ("they work together", '"a" || "b"', []),
            ("two of the three", '3-of("a", "b", "c")', ["said"]), ("two of the three", '2-of("a", "b", "c")', []),
            ("two of three, one with a deputy", '2-of("a", "b" || "d", "c")', []), ("one of two offices", '2-of("a", "b")', []),
        ):
            self.assertEqual(self.rules(f'Comment: {said}\nAuthorizer: "POLICY"\nLicensees: {licensees}\n'), wanted, said)

    def test_fields_in_comments(self):
        start = 'Authorizer: "POLICY"\nLicensees: "a"\n'
        for text, wanted in (
            ("Comment: by day\n  Conditions: @hour > 8;\n", ["label"]), ("# Conditions: @hour > 8;\n", ["label"]),
            ("Comment: see\n  Conditions: those of the contract\n", []), ("Conditions: x == \"1\";\n# Conditions: @hour > 8;\n", []),
            ('Conditions: x == "1" # && y == "2" -> "yes";\n', ["remark"]), ('Conditions: x == "1"; # && then "y" too\n', []),
            ('Conditions: x == "# && y;";\n', []),
        ):
            self.assertEqual(self.rules(start + text), wanted, text)

    def test_assertions_beside_others(self):
        def said(licensees, conditions, by="POLICY"):
            return f'Authorizer: "{by}"\nLicensees: {licensees}\nConditions: {conditions};\n\n'

        wide = said('"a" || "b"', 'd == "x" && @n <= 1000 -> "write"')
        for text, wanted in (
            (wide + said('"b"', 'd == "x" && @n <= 100 -> "write"'), ["narrow"]), (wide + said('"b"', 'd == "x" -> "write"'), []),
            (wide + said('"b"', 'd == "x" && @n <= 100 && e == "y" -> "read"'), ["narrow"]),
            (wide + said('"c"', 'd == "x" && @n <= 100 -> "write"'), []),
            (wide + said('"b" || "c"', 'd == "x" && @n <= 100 -> "write"'), []),
            (wide + said('"b"', 'd == "x" && @n <= 2000 -> "write"'), []),
            (said('"a"', 'd == "x"') + said('"c"', 'd == "y"', "a"), ["chain"]),
            (said('"a"', 'd == "x" || d == "y"') + said('"c"', 'd == "y"', "a"), []),
            (said('"a"', 'd == "x"') + said('"a"', 'd == "y"') + said('"c"', 'd == "y"', "a"), []),
            (said('"a"', "@n < 100") + said('"b"', 'd == "x"', "a") + said('"c"', "@n > 100", "b"), ["chain"]),
            (said('"a"', 'd == "x"') + said('"a"', 'd == "x"', "a"), ["reach"]),
            (said('"POLICY"', 'd == "x"', "a"), ["policy", "reach"]),
        ):
            self.assertEqual(self.rules(text), wanted, text)
        order = "# Values: none, read, write\n"
        handed = said('"c"', 'e == "1" -> "write"', "a")
        self.assertEqual(self.rules(order + said('"a"', 'd == "x" -> "read"') + handed), ["chain"])
        self.assertEqual(self.rules(order + said('"a"', 'd == "x" -> "write"') + handed), [])
        self.assertEqual(self.rules(order + said('"a"', 'd == "x" -> "read"; d == "y" -> "write"') + handed), [])

    def test_constants_in_quotes_and_of_other_assertions(self):
        one = 'Local-Constants: OP = "rsa-hex:ab" NET = "n"\nAuthorizer: "POLICY"\nLicensees: OP\nConditions: net == NET;\n\n'
        other = 'Authorizer: "POLICY"\nLicensees: %s\nConditions: net == %s;\n'
        self.assertEqual(self.rules(one + other % ('"OP"', '"n"')), ["quoted"])
        self.assertEqual(self.rules(one + other % ('"op"', '"n"')), [])
        self.assertEqual(self.rules(one + other % ('"OP"', '"n"') + '\nAuthorizer: "OP"\nLicensees: "x"\n'), [])
        self.assertEqual(self.rules(one + other % ('"x"', "NET")), ["unset"])
        self.assertEqual(self.rules(one + other % ('"x"', "home_net")), [])

    def test_who_asks_in_scripts(self):
        def asks(*sets):
            steps = ["".join(f"AUTH 1 {it}\n" for it in names) + "QUERY 1 no,yes\nCLEAR 1\n" for names in sets]
            return "OPEN\n" + "".join(steps)

        two = 'Authorizer: "POLICY"\nLicensees: %s\n'
        for licensees, script, wanted in (
            ('"a" && "b"', asks(["a"], ["b"]), ["alone"]), ('"a" && "b"', asks(["a"], ["b"], ["a", "b"]), []),
            ('"a" && "b"', asks(["a"], ["c"]), []), ('"a" || "b"', asks(["a"], ["b"]), []),
            ('"operater"', asks(["operator"]), ["requester", "asked"]), ('"anna" || "hanna"', asks(["hanna"]), []),
            ('"Operator" || "x"', asks(["x"], ["operator"]), ["requester", "asked"]),
        ):
            self.assertEqual(self.rules(two % licensees, script), wanted, (licensees, script))

    def test_what_answers_hang_on(self):
        start = "OPEN\nAUTH 1 alice\nSET 1 action read\n"
        for text, script, wanted in (
            ('action == "read" && alg != "null"', start, ["unset"]), ('action == "read" && suspended != "yes"', start, []),
            ('action == "read" && alg != "" && alg != "null"; action == "read"', start, ["never"]),
            ('action == "read" && @failures < 3', start, []), ('action == "read" && @hour < 18', start, ["unset"]),
            ('action == "read" -> "yes"; action == "write" && role == "x" -> "yes"', start, []),
            ('action == "read" && @size < @quota', start + "SET 1 size 5\n", ["unset"]),
            ('action == "read" && emergency == "yes"; action == "list"', start, []),
            ('action == "reading" || action == "list"', start, []), ('action == "peruse"', start, ["unmet"]),
        ):
            self.assertEqual(self.conditions(text, script + "QUERY 1 no,yes\n", PROGRAM), wanted, text)

    def test_key_files(self):
        good = "0123456789abcdef0123456789abcd%02x"
        for number, (line, wanted) in enumerate((
            ("mac KEY POLICY", "key-policy"), ("mac KEY Policy maker", ""), ("mac KEY ann # until May", "key-comment"),
            ("mac KEY room #5", ""), ("mac KEY C // D", "key-comment"), ("mac KEY a//b", ""), ("mac KEY ann, ben", "key-list"),
            ("mac KEY anna,ben", "key-list"), ("mac KEY Smith, John", ""), ("mac 0b0b ann", "key-short"), ("mac KEY 'ann'", "key-quotes"),
            ("mac 00000000000000000000000000000000 ann", "key-short"), ("mac KEY ann lee", ""), ("mac KEY ann ", "key-spaces"),
            ("mac KEY ann\nmac KEY ben", "key-same"), ("mac KEY ann\nmac KEY1 ann", ""), ("secret KEY\nmac KEY ann", "key-same"),
            ("mac KEY ann\r", ""),
        )):
            self.write("some", line.replace("KEY1", good % 99).replace("KEY", good % number).encode() + b"\n")
            os.chmod("some", 0o600)
            self.assertEqual([it.rule for it in linting.findings(None, (), "some")], [wanted] if wanted else [], line)

    def test_words_of_refused_key_files(self):
        for line, told in (
            ("secret open-sesame", "secret takes hexadecimal digits"), ("mac 0x12 ann", "mac takes hexadecimal digits, without 0x"),
            ("digest abcd", "digest takes 64 hexadecimal digits, and these are 4"), ("MAC ab ann", "mac is written in small letters"),
            ("mac\tab ann", "one space stands behind mac"), ("mac abc ann", "mac takes hexadecimal digits, two for each byte"),
            ("secret abcd x", "nothing stands behind the digits of secret"), ("mac abcd ", "the principal is missing"),
        ):
            self.write("some", line.encode() + b"\n")
            status, _, errors = self.command("lint", "--keys", "some")
            self.assertEqual((status, errors[:len("some:1:1: " + told)]), (2, "some:1:1: " + told), line)

"""Tests of what is told of texts: errors in words and places, and warnings."""

import glob
import os
import subprocess
import sys

import keynoted
from keynoted import reader, texts
from tests_room import CREDENTIAL, HERE, POLICY, PROGRAM, TOP, Room


class Explanations(Room):
    def test_the_mistakes_of_the_page(self):
        with open(os.path.join(TOP, "docs", "MISTAKES.md"), encoding="utf-8") as file:
            listed = file.read().split("count characters from 1.\n\n")[1]
        text, count = "", 0
        for told in listed.splitlines():
            if not told.startswith("        policy.kn:"):
                text += told[4:] + "\n"
                continue
            line = self.daemon_line(b'Authorizer: "POLICY"\n' + text.encode())
            self.assertEqual(keynoted.explain(line), told.strip(), text)
            text, count = "", count + 1
        self.assertGreaterEqual(count, 40)

    def test_the_reader_of_places_agrees_with_the_daemon_on_all_cases(self):
        accepted = refused = 0
        for name in glob.glob(os.path.join(TOP, "tests", "cases", "*", "p.kn")):
            with open(name, "rb") as file:
                text = file.read()
            line = self.daemon_line(text)
            if line.startswith("error policy") and "limit" not in line:
                refused += 1
                self.assertNotRegex(keynoted.explain(line), r": fault \d+( in|$)", name)
            elif not line:
                accepted += 1
                for start, end in texts.split_file(text):
                    fields = texts.fields_of(text[start:end])
                    for field in fields:
                        for fault in (16, 17, 18, 19) if field.number in (1, 3, 5, 7) else ():
                            reader.Reader(field, fault, texts.constants_of(fields)).read()
        self.assertTrue(accepted > 20 and refused > 20, (accepted, refused))

    def test_values_of_literals(self):
        for spelled, value in (
            (rb'"\012\101\000\7"', b"\nA0007"), (rb'"\n\r\t\f\q\"\\"', b'\n\r\t\fq"\\'), (b'"a\\\n   \n b"', b"ab"), (b'"a\\ b"', b"a b"),
            (rb'"\07\078"', b"\x07\x078"), (rb'"\0778"', b"?8"), (rb'"\400"', b"400"), (rb'"\00"', b"00"), (b'""', b""), (b'"', b""),
        ):
            self.assertEqual(texts.value_of(texts.Token("text", 0, len(spelled), spelled)), value, spelled)

    def test_each_line_has_words(self):
        lines = ["error words", "error memory", "error query", "error listener", "error keys 3", "error file a b read", "error file a b large"]
        lines += [f"error link {it}" for it in ("read", "write", "cut 17", "block 16385", "budget")]
        lines += [f"error proof text {it} 2" for it in (1, 2, 3)] + [f"error proof reject {it} 0 1" for it in range(1, 9)]
        lines += [f"error log {it} 2" for it in (1, 2, 3)] + [f"error transcript {it} 2" for it in range(1, 6)]
        lines += [f"NO {it}" for it in ("1 syntax", "2 command", "3 session", "4 admin", "5 read 16 3", "6 policy", "7 auth 4", "8 name", "9 value",
                                        "10 values", "11 principal", "12 unknown", "13 limit live-bytes 7", "14 long", "15 block")]
        told = [keynoted.explain(it) for it in lines + ["NOMEM"]]
        self.assertNotIn("", told)
        self.assertEqual(len(set(told)), len(told))
        self.assertEqual(keynoted.explain("OK 1 1"), "")

    def test_standard_input_is_copied_and_explained(self):
        self.write("p.kn", b'Authorizer: "POLICY"\nLicensees: alice\n')
        given = b"OK 1 1\nerror policy p.kn 1 19 5\nerror policy gone.kn 1 2 3\n\xff\nNO 3 session"
        run = subprocess.run([sys.executable, os.path.join(HERE, "keynoted.py"), "explain"], input=given, capture_output=True)
        self.assertEqual((run.returncode, run.stdout), (0, given))
        told = run.stderr.decode().splitlines()
        self.assertEqual(told[0], 'p.kn:2:12: alice is no local constant: a principal stands in quotes, "alice"')
        self.assertRegex(told[1], r"^error policy gone.kn 1 2 3: ")
        self.assertEqual(told[2:], ["NO 3 session: no such session is open on this connection"])

    def test_a_path_with_spaces_and_a_later_assertion(self):
        os.rename("p.kn", "my policy 1.kn")
        self.write("my policy 1.kn", POLICY + b'# note\n\n\n# more\nAuthorizer: "a"\nLicensees: "b" or "c"\n')
        run = subprocess.run([PROGRAM, "ask", "my policy 1.kn"], stdin=subprocess.DEVNULL, stdout=subprocess.PIPE)
        self.assertEqual(keynoted.explain(run.stdout.decode().strip()), "my policy 1.kn:8:16: write '||' in place of 'or'")


class Warnings(Room):
    def lint(self, policy, script=b""):
        self.write("policy.kn", policy)
        self.write("script", script)
        status, out, _ = self.command("lint", "policy.kn", "script")
        self.assertEqual(status, 1 if out else 0)
        return out.splitlines()

    def test_each_is_given(self):
        for policy, script, told in (
            (POLICY + b'Conditions: true -> "maybe";\n', b"OPEN\nQUERY 1 no,yes\n", "policy.kn:3:21: no query has the value maybe"),
            (POLICY + b'Conditions: _HOUR == "9";\n', b"", "policy.kn:3:13: _HOUR is always empty"),
            (POLICY + b"\n" + b'Authorizer: "carol"\nLicensees: "dan"\n', b"", "policy.kn:4:13: carol is licensed by nobody"),
            (POLICY + b'\nAuthorizer: "x"\nLicensees: "y"\n\nAuthorizer: "y"\nLicensees: "x"\n', b"", "policy.kn:4:13: x isn't reached from POLICY"),
            (POLICY, b"OPEN\nAUTH 1 bob\n", "script:2:1: no assertion licenses bob"),
            (b'Local-Constants: A = "a"\n' + POLICY, b"", "policy.kn:1:18: the constant A isn't used"),
            (POLICY + b"Conditions: true -> yes;\n", b"", "policy.kn:3:21: this is the value of the attribute yes"),
            (b'Authorizer: "POLICY"\nLicensees: "\\"alice\\""\n', b"", "policy.kn:2:12: this principal has quotes within"),
            (POLICY, b'OPEN\nAUTH 1 "alice"\n', 'script:2:1: no assertion licenses "alice"; nothing stands in quotes'),
            (CREDENTIAL, b"", "policy.kn:1:1: no assertion is by POLICY"),
            (POLICY, b"OPEN\nQUERY 1 yes,no\n", "script:2:1: the first value, yes, is what a refusal gives"),
        ):
            self.assertTrue(any(line.startswith(told) for line in self.lint(policy, script)), (told, self.lint(policy, script)))

    def test_what_is_meant_is_passed(self):
        for conditions in (b"true -> _MAX_TRUST", b'$("a") == "b" -> "yes"'):
            policy = POLICY + b"Conditions: " + conditions + b";\n"
            self.assertEqual(self.lint(policy, b"OPEN\r\nQUERY 1 no,yes\r\n"), [])
        self.assertEqual(self.lint(POLICY, b"OPEN\nASSERT 1 37\n" + CREDENTIAL + b"\nAUTH 1 bob\nQUERY 1 no,yes"), [])

    def test_all_examples_pass(self):
        policies = glob.glob(os.path.join(TOP, "examples", "*", "policy.kn"))
        self.assertGreater(len(policies), 5)
        for policy in policies:
            script = os.path.join(os.path.dirname(policy), "requests.txt")
            self.assertEqual(self.command("lint", policy, script), (0, "", ""), policy)

    def test_a_policy_that_is_refused_is_explained(self):
        self.write("p.kn", b'Authorizer: "POLICY"\nLicensees: alice\n')
        self.assertEqual(self.command("lint", "p.kn")[0], 2)

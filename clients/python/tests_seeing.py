"""Tests of what why says, and of pictures."""

import html.parser
import os
import random
import re
import shutil
import subprocess
import sys
import xml.etree.ElementTree

from keynoted import drawing, linting, pages, parts, trees, why
from tests_room import CREDENTIAL, HERE, POLICY, PROGRAM, TOP, Room

CHROMIUM = shutil.which("chromium") or shutil.which("chromium-browser") or shutil.which("google-chrome")


class Trees(Room):
    def test_all_that_the_daemon_takes_is_read(self):
        count = 0
        for root, _, names in os.walk(os.path.join(TOP, "tests", "cases")):
            name = os.path.join(root, "p.kn")
            if "p.kn" not in names or self.daemon_line(linting.read_file(name)):
                continue
            for part in parts.parts_of(name):
                for number, tree in ((5, part.formula), (3, part.clauses)):
                    field = part.field(number)
                    if field and any(it.text != b";" for it in field.tokens):
                        self.assertTrue(tree, name)
                        count += 1
        self.assertGreater(count, 100)

    def test_a_long_chain_is_no_deep_tree(self):
        self.write("policy.kn", POLICY + b"Conditions: " + b"1+" * 5000 + b"1 == @x;\n")
        self.assertEqual(linting.lint("policy.kn"), [])
        self.assertEqual(len(list(trees.nodes_of(parts.parts_of("policy.kn")[0].clauses))), 5005)


class Whys(Room):
    def why(self, policy, *words):
        self.write("policy.kn", policy.encode())
        return self.command("why", "policy.kn", *words)

    def test_the_words(self):
        policy = ('Comment: one\nAuthorizer: "POLICY"\nLicensees: "bob" && 2-of("alice", "carol", "dave")\n\n'
                  'Authorizer: "POLICY"\nLicensees: "dave"\nConditions: app_domain == "doors" && @hour < 18;\n')
        status, out, _ = self.why(policy, "--auth", "dave", "--values", "no,yes", "--set", "hour=20")
        self.assertEqual((status, out.splitlines()), (1, [
            "answer: no, which is 0 of no,yes",
            "a2, policy.kn:5:1: its conditions give no with these attributes; app_domain isn't set; "
            "@hour < 18 isn't true where hour is 20; with that the answer would be yes",
            "a1, policy.kn:1:1: bob and one more of alice, carol are missing; with that the answer would be yes",
        ]))
        words = ("--auth", "dave", "--set", "app_domain=doors", "--set", "hour=9", "--values", "no,yes")
        self.assertEqual(self.why(policy, *words), (0, "answer: yes, which is 1 of no,yes\n", ""))
        self.assertEqual(self.why(policy, "--values", "no,yes")[0], 2)

    def test_words_of_groups(self):
        for licensees, wanted in (
            ('"a" || "b"', "one of a, b is missing"), ('"a" && "b"', "a and b are missing"),
            ('3-of("a", "b", "x", "c")', "two more of a, b, c are missing"),
            ('"a" || ("b" && "c")', "one of a, (b and c) is missing"), ('"x" && "a"', "a is missing"),
            ('2-of("a" && "x", "b" && "x")', "a and b are missing"),
            ('"a" && ("b" || "c")', "a and one of b, c are missing"),
            ('2-of("a", "b", "c")', "two of a, b, c are missing"),
        ):
            out = self.why(f'Authorizer: "POLICY"\nLicensees: {licensees}\n', "--auth", "x", "--values", "no,yes")[1]
            self.assertIn(f": {wanted}; with that the answer would be yes\n", out)

    def test_behind_others_and_by_levels(self):
        policy = ('Authorizer: "POLICY"\nLicensees: "head"\n\nAuthorizer: "head"\nLicensees: "why" || "x"\n'
                  'Conditions: a == "1" -> { b == "1" -> "read"; b == "2" -> "write"; };\n')
        out = self.why(policy, "--auth", "x", "--set", "a=1", "--set", "b=1", "--values", "none,read,write")[1]
        self.assertIn("a2, policy.kn:4:1: its conditions give read with these attributes; "
                      "b == \"2\" isn't true where b is 1; with that the answer would be write\n", out)
        words = ("--auth", "x", "--values", "none,read,write", "--at-least", "write", "--most", "1")
        out = self.why(policy, *words)[1]
        self.assertIn("a2, policy.kn:4:1: its conditions give none with these attributes; a isn't set; b isn't set; "
                      "with that the answer would be write\n1 more", out)

    def test_what_is_not_enough_comes_last(self):
        policy = ('Authorizer: "a"\nLicensees: "x"\nConditions: k == "1";\n\n'
                  'Authorizer: "POLICY"\nLicensees: "c" && "d"\n')
        lines = self.why(policy, "--auth", "x", "--values", "no,yes")[1].splitlines()
        self.assertEqual([it[:2] for it in lines], ["an", "a2", "a1"])
        self.assertTrue(lines[2].endswith("k isn't set; that alone isn't enough"), lines)

    def test_what_is_missing_is_enough(self):
        """Where no test is missing, the program gives the assertion more once the named principals ask too."""
        draw, tried = random.Random(7), 0
        names = [f"p{it}" for it in range(9)]
        for _ in range(30):
            parts = [self.generated(draw, names, "POLICY" if at < 2 else draw.choice(names)) for at in range(8)]
            self.write("policy.kn", "\n".join(parts).encode())
            asking = draw.sample(names, 2)
            with why.Inquiry("policy.kn", asking, {"x": "1"}, ["no", "log", "yes"]) as inquiry:
                index = inquiry.ask().index
                for near, reached in why.nearest(inquiry, index, 99)[0] if index < 2 else ():
                    answer = inquiry.ask(requesters=near.principals)
                    authorizer = next(who for _, who in near.part.principals(1))
                    held = {row.principal: row.level for row in answer.rows}
                    held.update({who.encode(): 2 for who in asking})
                    held.update({who: 2 for who in near.principals})
                    if not near.tests:
                        self.assertGreater(held.get(authorizer, 0), index, parts)
                        self.assertEqual(reached, answer.index)
                        tried += 1
        self.assertGreater(tried, 60)

    @staticmethod
    def generated(draw, names, authorizer):
        a, b, c, d = (f'"{it}"' for it in draw.sample(names, 4))
        joined = [a, f"{a} || {b}", f"{a} && ({b} || {c})", f"2-of({a}, {b}, {c} && {d})", f"({a} && {b}) || {c}"]
        licensees = draw.choice(joined)
        conditions = draw.choice(["", 'Conditions: x == "1" -> "log"; x == "2";\n', 'Conditions: y == "1";\n'])
        return f'Authorizer: "{authorizer}"\nLicensees: {licensees}\n{conditions}'


HOSTILE = b"""Authorizer: "POLICY"
Licensees: 2-of("a", "b<script>document.title='x'</script>", "it's & \\"c\\"") || "owner"
Conditions: x == "]]> --> </svg>" -> "write"; true -> "<i>read";

Authorizer: "a"
Licensees: "anna" && "ben\\033[31m"

Authorizer: "b<script>document.title='x'</script>"
Licensees: "carl" || "anna"
Conditions: true -> "<i>read";
"""
SCRIPT = b"OPEN\nAUTH 1 anna\nAUTH 1 ben\x1b[31m\nAUTH 1 carl\nASSERT 1 60\n" + (
    b'Authorizer: "nobody"\nLicensees: "carl"\nComment: </title>\xe2\x80\xae\n') + b"\nQUERY 1 none,<i>read,write\n"


class Pictures(Room):
    def picture(self, form, policy=HOSTILE, script=SCRIPT):
        self.write("policy.kn", policy)
        self.write("script", script)
        with open("output", "wb") as output:
            subprocess.run([PROGRAM, "ask", "policy.kn"], input=script, stdout=output, check=True)
        return self.drawn(form, "policy.kn", "script", "output")

    @staticmethod
    def drawn(*words):
        """What `explain` writes with these words."""
        command = [sys.executable, os.path.join(HERE, "keynoted.py"), "explain", *words]
        return subprocess.run(command, stdout=subprocess.PIPE, check=True).stdout.decode()

    def test_a_page_stands_alone_and_escapes_all(self):
        page = self.picture("--html")
        self.assertIn("PROVED 1 &lt;i&gt;read", page)
        tags = []
        parser = html.parser.HTMLParser()
        parser.handle_starttag = lambda tag, attributes: tags.append((tag, dict(attributes)))
        parser.feed(page)
        loading = {"script", "i", "img", "link", "iframe", "object", "image", "use", "a"}
        self.assertFalse({tag for tag, _ in tags} & loading)
        names = {name for _, found in tags for name in found}
        self.assertFalse(names & {"src", "href", "xlink:href", "data", "style"})
        self.assertFalse([it for it in names if it.startswith("on")])
        policy = {"http-equiv": "Content-Security-Policy", "content": "default-src 'none'; style-src 'unsafe-inline'"}
        self.assertIn(("meta", policy), tags)
        self.assertEqual(re.findall(r"https?://[^\"]*", page), ["http://www.w3.org/2000/svg"])
        self.assertNotRegex(page, "[\\x00-\\x08\\x0b-\\x1f\\x7f\u202e]")
        svg = xml.etree.ElementTree.fromstring(page[page.index("<svg"):page.index("</svg>") + 6])
        texts = "".join(svg.itertext())
        script = "b<script>document.title='x'</script>"
        for text in ("a1, policy.kn:1:1", script, 'it\'s & "c"', "ben\\u001b[31m", "asks: write", "<i>read"):
            self.assertIn(text, texts)

    def test_levels_stand_on_the_edges(self):
        self.picture("--html")
        with open("output", "rb") as file:
            proof = drawing.Proof("policy.kn", "script", file.read())
        picture = drawing.picture_of(proof)
        edges = {(it.start, it.end): it.level for it in picture.edges}
        self.assertEqual(edges["panna", "ca2"], 2)
        self.assertEqual((edges["ca2", "pa"], edges["pa", "ca1"], edges["ca1", "pPOLICY"]), (2, 2, 1))
        self.assertEqual((edges["powner", "ca1"], edges["pb<script>document.title='x'</script>", "ca1"]), (0, 1))
        self.assertIn(b"nobody", [row.principal for row in proof.rows])
        self.assertNotIn("pnobody", picture.boxes)  # POLICY's value doesn't lean on it
        asking = {key for key, box in picture.boxes.items() if box.sort == "requester"}
        self.assertEqual(asking, {"panna", "pben\x1b[31m", "pcarl"})
        spots = list(pages.layout(proof, picture).values())
        for at, one in enumerate(spots):
            for other in spots[at + 1:]:
                apart = one.left + one.width <= other.left or other.left + other.width <= one.left
                above = one.top + one.height <= other.top or other.top + other.height <= one.top
                self.assertTrue(apart or above, (one, other))

    def test_the_last_query_of_a_script_is_meant(self):
        script = (b"OPEN\nOPEN\nAUTH 2 carl\nAUTH 1 bob\nAUTH 1 RSA-HEX:AB\nUNAUTH 1 rsa-hex:ab\nQUERY 2 a,b\nCLEAR 2\n"
                  b"AUTH 2 x\nASSERT 1 37\n" + CREDENTIAL + b"\nQUERY 1 no,yes\nAUTH 1 later\n")
        page = self.picture("--html", POLICY, script)
        self.assertIn("<h1>POLICY has yes</h1>", page)
        self.assertIn("<td>alice</td><td>yes</td><td>p1</td>", page)
        question = drawing.question_of("script")
        self.assertEqual((question.requesters, question.values), ([b"bob"], ["no", "yes"]))
        self.assertEqual(list(question.private), ["p1"])

    def test_dot(self):
        text = self.picture("--dot")
        self.assertRegex(text, r'(?s)^digraph proof \{\n(    ([^"]|"(\\.|[^"\\])*")*;\n)+\}\n$')
        if shutil.which("dot"):
            subprocess.run(["dot", "-Tsvg"], input=text.encode(), stdout=subprocess.DEVNULL, check=True)

    def test_a_refused_reply_and_no_value(self):
        page = self.picture("--html", POLICY, b"OPEN\nAUTH 1 bob\nQUERY 1 no,yes\n")
        self.assertIn("PROVED 0 no", page)
        self.write("output", b'VALUE 1 yes 1 1\nROW 1 a1 "POLICY"\nEND\n')
        status, _, _ = self.command("explain", "--dot", "policy.kn", "script")
        self.assertEqual(status, 2)
        page = self.drawn("--html", "policy.kn", "script", "output")
        self.assertIn("error proof reject 6 0 0 (the rows prove no such value", page)
        self.assertIn("<h1>Not proved by these files: POLICY has yes</h1>", page)

    def test_an_added_credential_has_no_text_here(self):
        self.write("output", b'VALUE 1 yes 2 2\nROW 1 a2 "alice"\nROW 1 a1 "POLICY"\nEND\n')
        self.write("script", b"OPEN\nAUTH 1 bob\nADD 37\n" + CREDENTIAL + b"\nPIN 1\nQUERY 1 no,yes\n")
        self.assertIn("added: its text", self.drawn("--html", "p.kn", "script", "output"))

    def test_in_a_browser(self):
        if not CHROMIUM:
            print("pictures in Chromium are left out: there is no chromium")
            return
        page = self.picture("--html")
        self.write("page.html", page.encode())
        words = [CHROMIUM, "--headless", "--no-sandbox", "--disable-gpu", f"--user-data-dir={self.room}/profile",
                 "--window-size=1200,1400", "--dump-dom", "file://" + os.path.join(self.room, "page.html")]
        run = subprocess.run(words, stdout=subprocess.PIPE, stderr=subprocess.DEVNULL, timeout=120)
        if run.returncode:
            print("pictures in Chromium are left out: it doesn't start here")
            return
        dom = run.stdout.decode()
        self.assertIn("<title>POLICY has &lt;i&gt;read</title>", dom)
        for it in ("<rect", 'class="critical"', 'class="requester"'):
            self.assertGreater(page.count(it), 0)
            self.assertEqual(dom.count(it), page.count(it))

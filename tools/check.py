"""Tests of these tools. usage: tools/check.py"""

import os
import re
import shutil
import subprocess
import sys
import tempfile
import unittest
import xml.dom.minidom

HERE = os.path.dirname(os.path.abspath(__file__))
EXAMPLES = os.path.join(os.path.dirname(HERE), "examples")
sys.dont_write_bytecode = True
sys.path.insert(0, HERE)

from chains import story_of, story_of_script  # noqa: E402
from data import digest_of, key_from  # noqa: E402
from digtext import Refused, replies_in  # noqa: E402
from picture import dot, svg  # noqa: E402
from runs import outcomes_in, script_in  # noqa: E402
from signatures import Tests, sets_in, signed_octets  # noqa: E402
from wire import Unreadable, message_from  # noqa: E402
from words import around, date_text, name_from_text, name_text, seconds_of  # noqa: E402

# What a tool says of a cause that it can find by itself: a failed signature, a missing key, a question without a reply.
FOUND = ("No signature", "Bad signature", "too many bad signature for DNSKEY", "request for DS or DNSKEY failed", "NSEC proves DS",
         "No proof for missing DS")


def example(name):
    with open(os.path.join(EXAMPLES, name), encoding="utf-8") as file:
        return file.read()


def sample(name):
    with open(os.path.join(HERE, "samples", name), encoding="utf-8") as file:
        return file.read()


def run(tool, *words, source=""):
    done = subprocess.run([sys.executable, os.path.join(HERE, tool), *words], input=source, capture_output=True, text=True, check=False)
    return done.returncode, done.stdout, done.stderr


def examples():
    for file in sorted(os.listdir(EXAMPLES)):
        if file.endswith(".script"):
            yield file[:-len(".script")]


def said(octets):
    """What a message says, but for its number, the letters of its flags beyond QR, AA and RCODE, and its OPT record."""
    message = message_from(octets)
    additional = [record for record in message.additional if record.rtype != 41]
    return message.flags & 0x840F, message.questions, message.answer, message.authority, additional


class Moments(unittest.TestCase):
    def test_words(self):
        for word, seconds in (("20090213233130", 1234567890), ("2009-02-13T23:31:30Z", 1234567890), ("2038-01-19T03:14:07Z", 2 ** 31 - 1),
                              ("2001-09-09T03:46:40+02:00", 10 ** 9), ("1970-01-02", 86400), ("1234567890", 1234567890)):
            self.assertEqual(seconds_of(word), seconds, word)
            self.assertEqual(run("now", word), (0, "%d\n" % seconds, ""))
        self.assertEqual(run("now", "--dates", "1234567890")[1], "1234567890  20090213233130  2009-02-13T23:31:30Z\n")

    def test_refused(self):
        for word in ("20261301000000", "2026-02-30", "1h", "12345678901", "", "-1"):
            with self.assertRaises(Unreadable):
                seconds_of(word)
        self.assertEqual(run("now", "2026-02-30")[0], 1)
        self.assertEqual(run("now", "--what")[0], 2)

    def test_circle(self):
        """Signatures say moments modulo 2^32 (RFC 4034 3.1.5)."""
        self.assertEqual(around(2 ** 32 + 500, 500), 2 ** 32 + 500)
        self.assertEqual(around(100, 2 ** 32 - 1), -1)


class Names(unittest.TestCase):
    def test_escapes(self):
        self.assertEqual(name_from_text("a\\.b\\032c.Example"), (b"a.b c", b"Example"))
        self.assertEqual(name_text((b"a.b c", b"Example")), "a\\046b\\032c.Example.")
        for text in ("a..b", "", ".a", "a\\256.", "x" * 64, ".".join(["x" * 60] * 5)):
            with self.assertRaises(Unreadable):
                name_from_text(text)

    def test_pointers(self):
        header = bytes(4) + b"\0\2" + bytes(6)
        asked = message_from(header + b"\1a\0\0\1\0\1" + b"\1b\xc0\x0c\0\1\0\1").questions
        self.assertEqual([question.name for question in asked], [(b"a",), (b"b", b"a")])
        for name in (b"\xc0\x13", b"\xc0\x20", b"\x40a\0", b"\5ab"):
            with self.assertRaises(Unreadable):
                message_from(header + b"\1a\0\0\1\0\1" + name + b"\0\1\0\1")


class FromDig(unittest.TestCase):
    def test_chain_as_in_the_example(self):
        """Replies that dig printed are those of the script that they were asked of."""
        status, text, told = run("from-dig", "--now", "500", "--anchor", "example. 3600 IN DNSKEY 257 3 13 AQI=",
                                 source=sample("three-zones.dig"))
        made, meant = script_in(text), script_in(example("three-zones.script"))
        self.assertEqual((status, made.anchors), (0, meant.anchors))
        self.assertIn("real signatures, as those of the Internet, are Bogus", told)
        self.assertIn("real signatures, as those of the Internet, are Bogus", text)
        self.assertEqual({key: said(octets) for key, octets in made.replies.items()},
                         {key: said(octets) for key, octets in meant.replies.items()})
        self.assertEqual([(moment, said(octets)) for moment, octets in made.messages],
                         [(moment, said(octets)) for moment, octets in meant.messages])

    def test_denial(self):
        status, text, told = run("from-dig", source=sample("missing-name.dig"))
        moment, octets = script_in(text).messages[0]
        self.assertEqual((status, moment), (0, seconds_of("2026-11-28T09:08:59Z")))
        self.assertEqual(said(octets), said(script_in(example("missing-name.script")).messages[0][1]))
        self.assertIn("no --anchor was given", told)

    def test_opt(self):
        reply = replies_in(sample("missing-name.dig"))[0]
        self.assertEqual([(record.owner, record.rtype, record.rclass, record.ttl) for record in reply.message.additional],
                         [((), 41, 1232, 0x8000)])

    def test_by_hand(self):
        reply = replies_in(";; QUESTION SECTION:\n;www.example. IN A\n;; ANSWER SECTION:\nwww.example. 60 IN A \\# 4 (\n c000 ; one\n 0201 )\n")[0]
        self.assertEqual(reply.octets.hex(), "0000" "8400" "0001" "0001" "0000" "0000" "03777777076578616d706c6500" "00010001"
                         "03777777076578616d706c6500" "0001" "0001" "0000003c" "0004" "c0000201")

    def test_escapes(self):
        reply = replies_in(";; QUESTION SECTION:\n;a\\(b\\;c\\032. IN A\n;; ANSWER SECTION:\na\\(b\\;c\\032. 60 IN A \\# 0\n")[0]
        self.assertEqual((reply.message.questions[0].name, reply.message.answer[0].owner), ((b"a(b;c ",), (b"a(b;c ",)))

    def test_refused(self):
        head = ";; QUESTION SECTION:\n;a. IN A\n;; ANSWER SECTION:\n"
        for text, line, why in ((head + "a. 60 IN A 192.0.2.1\n", 4, "+unknownformat"), (head + "a. 60 IN A \\# 4 c00002\n", 4, "4 octets"),
                                (head + "a. 1h IN A \\# 0\n", 4, "TTL in seconds"), (head + "a. 60 IN A \\# 4 ( c0\n", 4, "isn't closed"),
                                ("a. 60 IN A \\# 0\n", 1, "before the first reply"), (head + "a..b. 60 IN A \\# 0\n", 4, "no name"),
                                (";; QUESTION SECTION:\n;a. IN\n", 2, "no question"), (";; QUESTION SECTION:\n", 1, "0 questions")):
            with self.assertRaisesRegex(Refused, r"^line %d: .*%s" % (line, re.escape(why))):
                replies_in(text)
        with self.assertRaisesRegex(Refused, "header says 6 in the authority section, and 4"):
            replies_in("\n".join(line for line in sample("missing-name.dig").split("\n") if "TYPE47" not in line))
        self.assertEqual(run("from-dig", source="hello\n")[0], 1)
        self.assertEqual(run("from-dig", source="")[0], 1)
        self.assertEqual(run("from-dig", "--what")[0], 2)

    def test_told(self):
        told = run("from-dig", source=sample("three-zones.dig").replace("flags: qr aa;", "flags: qr aa tc;")
                   + "\n;; no servers could be reached\n" + sample("three-zones.dig"))[2]
        for what in ("is truncated (flag tc)", "a question without a reply", "a second reply for b.example. DS"):
            self.assertIn(what, told)


class RealSignature(unittest.TestCase):
    """The key, DS record and signature of RFC 6605 6.1."""

    def setUp(self):
        self.keys, self.answer = (reply.message for reply in replies_in(sample("real-signature.dig")))
        self.key = key_from(self.keys.answer[0].data)

    def test_tag_and_digest(self):
        self.assertEqual((self.key.tag, digest_of(2, name_from_text("example.net."), self.key).hex()),
                         (55648, "b4c8c1fe2e7477127b27115656ad6256f424625bf5c1e2770ce6d6e37df61d17"))

    def test_dates(self):
        signature = sets_in(self.answer.answer)[0].signatures[0]
        self.assertEqual((date_text(signature.inception, "%Y%m%d%H%M%S"), date_text(signature.expiration, "%Y%m%d%H%M%S"), signature.tag,
                          name_text(signature.signer)), ("20100812100439", "20100909100439", 55648, "example.net."))

    def test_signed_octets(self):
        """What is signed is what openssl finds signed."""
        if not shutil.which("openssl"):
            self.skipTest("openssl isn't here")
        one = sets_in(self.answer.answer)[0]
        halves = [half.lstrip(b"\0") for half in (one.signatures[0].signature[:32], one.signatures[0].signature[32:])]
        numbers = b"".join(bytes([2, len(half)]) + half for half in (b"\0" * (half[0] >> 7) + half for half in halves))
        with tempfile.TemporaryDirectory() as folder:
            files = {"key": bytes.fromhex("3059301306072a8648ce3d020106082a8648ce3d03010703420004") + self.key.key,
                     "signature": bytes([0x30, len(numbers)]) + numbers, "octets": signed_octets(one.signatures[0], one)}
            for name, octets in files.items():
                with open(os.path.join(folder, name), "wb") as file:
                    file.write(octets)
            subprocess.run("openssl pkey -pubin -inform DER -in key -out pem && openssl dgst -sha256 -verify pem -signature signature octets",
                           shell=True, cwd=folder, check=True, stdout=subprocess.DEVNULL)


class Chain(unittest.TestCase):
    def told(self, name, *words):
        status, text, why = run("chain", "--script", os.path.join(EXAMPLES, name + ".script"), *words, source=example(name + ".output"))
        self.assertEqual((status, why), (0, ""))
        return text

    def test_own_tests_agree(self):
        """The tests that find what failed pass for messages that are Secure, and fail for causes that they can find."""
        for name in examples():
            script = script_in(example(name + ".script"))
            for outcome in outcomes_in(example(name + ".output")):
                story = story_of_script(outcome, script, Tests(script.messages[outcome.index][0], True), script.messages[outcome.index][1])
                failed = [box for box in story.boxes if box.state == "failed" and box.zone is not None]
                if outcome.state == "Secure":
                    self.assertEqual(failed, [], name)
                elif outcome.text in FOUND:
                    self.assertEqual(len(failed), 1, "%s %d" % (name, outcome.index))

    def test_text(self):
        text = self.told("broken-chains")
        for words in ('message 0: Bogus, 6 "No signature", 5 questions asked', "has a signature by key 4123 of c.b.example., 2026-11-01 00:00:00",
                      "no key is one that a DS record speaks of",
                      "the signature by key 5151 has expired at 2026-11-27 00:00:00", "the question fails", "DS of key 1810, algorithm 13"):
            self.assertIn(words, text)
        self.assertIn("an expansion of *.w.example.", self.told("wildcard-answer"))
        self.assertIn("nothing stands below a DNAME", self.told("below-dname"))
        self.assertIn("next a.example., types NS SOA MX RRSIG NSEC DNSKEY", self.told("missing-name"))

    def test_pictures(self):
        for name in examples():
            script = script_in(example(name + ".script"))
            for outcome in outcomes_in(example(name + ".output")):
                story = story_of(outcome, script)
                self.look(svg(story), 'rx="5"', 'stroke="#c62828"', outcome)
                self.look(dot(story), "fillcolor=", 'color="#c62828"', outcome)
                xml.dom.minidom.parseString(svg(story))

    def look(self, text, box, red, outcome):
        self.assertGreaterEqual(text.count(box), 1)
        self.assertEqual(red in text, outcome.state in ("Bogus", "error"))

    def test_files(self):
        with tempfile.TemporaryDirectory() as folder:
            file = os.path.join(folder, "picture")
            self.told("three-zones", "--message", "1", "--svg", file)
            xml.dom.minidom.parse(file)
            self.told("three-zones", "--message", "1", "--dot", file)
            if shutil.which("dot"):
                subprocess.run(["dot", "-Tplain", file], check=True, stdout=subprocess.DEVNULL)

    def test_unverified(self):
        """A signature that isn't the stand-in's passes where it isn't verified; dates and keys are looked at all the same."""
        self.assertIn("! keys of d.b.example.", self.told("broken-chains", "--message", "1"))
        self.assertNotIn("\n  !", self.told("broken-chains", "--message", "1", "--unverified"))
        self.assertIn("has expired at 2026-11-27", self.told("broken-chains", "--message", "2", "--unverified"))
        self.assertEqual(run("chain", "--unverified", source=example("first-answer.output"))[0], 2)

    def test_without_a_script(self):
        status, text, _ = run("chain", source=example("broken-chains.output"))
        self.assertEqual(status, 0)
        self.assertIn("keys of b.example.", text)
        self.assertIn('message 3: Bogus, 6 "request for DS or DNSKEY failed"', text)

    def test_refused(self):
        self.assertEqual(run("chain", source="line 3: order\n")[0], 1)
        self.assertEqual(run("chain", source="")[0], 1)
        self.assertEqual(run("chain", "--message", "7", source=example("first-answer.output"))[0], 1)
        self.assertEqual(run("chain", "--what")[0], 2)


if __name__ == "__main__":
    unittest.main()

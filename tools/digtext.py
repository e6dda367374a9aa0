"""Replies in the text that `dig +unknownformat` prints: their header, sections and records, with data in the form of RFC 3597 5."""

import collections
import re

from wire import Message, Question, Record, Unreadable, message_octets, number
from words import class_of, name_from_text, seconds_of, type_of

HEADER = re.compile(r";; ->>HEADER<<- opcode: (\w+), status: (\w+), id: (\d+)")
FLAGS = re.compile(r";; flags:([ a-z]*); QUERY: (\d+), ANSWER: (\d+), AUTHORITY: (\d+), ADDITIONAL: (\d+)")
EDNS = re.compile(r"; EDNS: version: (\d+), flags:([ a-z]*); (?:MBZ: \w+, )?udp: (\d+)")
SECTION = re.compile(r";; (OPT PSEUDO|QUESTION|ANSWER|AUTHORITY|ADDITIONAL)\s?SECTION:")
WHEN = re.compile(r";; WHEN: \w+ (\w+) +(\d+) (\d+:\d+:\d+) (\S+) (\d+)")
OPENS, CLOSES = re.compile(r"(?<!\\)\("), re.compile(r"(?<!\\)\)")
MONTHS = "Jan Feb Mar Apr May Jun Jul Aug Sep Oct Nov Dec".split()
BITS = {"qr": 0x8000, "aa": 0x0400, "tc": 0x0200, "rd": 0x0100, "ra": 0x0080, "ad": 0x0020, "cd": 0x0010}
STATUSES = ("NOERROR FORMERR SERVFAIL NXDOMAIN NOTIMP REFUSED YXDOMAIN YXRRSET NXRRSET NOTAUTH NOTZONE RESERVED11 RESERVED12 RESERVED13 "
            "RESERVED14 RESERVED15 BADVERS").split()

Reply = collections.namedtuple("Reply", "line status message octets when")


class Refused(Exception):
    """A line of the text that says nothing this can read."""

    def __init__(self, line, why):
        super().__init__("line %d: %s" % (line, why))


class Growing:
    """A reply while its lines are read. Without a header it is an answer of an authority, without an error."""

    def __init__(self, line):
        self.line, self.id, self.flags, self.rcode, self.status = line, 0, 0x8400, 0, "NOERROR"
        self.counts, self.section, self.opt, self.when = None, None, [], None
        self.sections = {"QUESTION": [], "ANSWER": [], "AUTHORITY": [], "ADDITIONAL": []}

    def header(self, line, status, identity):
        if status not in STATUSES and status != "BADCOOKIE":
            raise Refused(line, "the status %s isn't known" % status)
        self.status, self.id = status, int(identity)
        self.rcode = 23 if status == "BADCOOKIE" else STATUSES.index(status)

    def flagged(self, words, counts):
        self.flags = sum(BITS.get(word, 0) for word in words.split())
        self.counts = [int(count) for count in counts]

    def edns(self, version, words, size):
        rest = (self.rcode >> 4) << 24 | int(version) << 16 | (0x8000 if "do" in words.split() else 0)
        self.opt = [Record((), 41, int(size), rest, b"")]

    def done(self):
        """The reply, with its records counted."""
        asked, answer, authority, additional = (self.sections[name] for name in ("QUESTION", "ANSWER", "AUTHORITY", "ADDITIONAL"))
        for name, found, said in zip(("question", "answer", "authority"), (asked, answer, authority), self.counts or ()):
            if len(found) != said:
                raise Refused(self.line, "the header says %d in the %s section, and %d stand there" % (said, name, len(found)))
        if len(asked) != 1:
            raise Refused(self.line, "a reply with %d questions" % len(asked))
        message = Message(self.id, self.flags | self.rcode & 15, asked, answer, authority, additional + self.opt)
        try:
            return Reply(self.line, self.status, message, message_octets(message), self.when)
        except Unreadable as why:
            raise Refused(self.line, str(why)) from None


def whole_lines(text):
    """Each line with its number; records that parentheses lead over several are one."""
    held, first = "", 0
    for line, words in enumerate(text.split("\n"), 1):
        words = words.rstrip("\r")
        if not held and (words.startswith(";") or not OPENS.search(words)):
            yield line, words
            continue
        first = first if held else line
        held += " " + words.split(" ;")[0]
        if CLOSES.search(words):
            yield first, CLOSES.sub(" ", OPENS.sub(" ", held[1:]))
            held = ""
    if held:
        raise Refused(first, "a parenthesis that isn't closed")


def record_of(line, words):
    parts = words.split()
    if len(parts) < 4:
        raise Refused(line, "no record: %s" % words.strip())
    owner, ttl, rclass, rtype = parts[:4]
    rclass, rtype = class_of(rclass), type_of(rtype)
    if not re.fullmatch(r"\d{1,10}", ttl) or rclass is None or rtype is None:
        raise Refused(line, "no owner, TTL in seconds, class and type: %s" % words.strip())
    return Record(name_of(line, owner), rtype, rclass, int(ttl), data_of(line, parts[4:]))


def name_of(line, text):
    try:
        return name_from_text(text)
    except Unreadable as why:
        raise Refused(line, str(why)) from None


def data_of(line, words):
    if len(words) < 2 or words[0] != "\\#" or not re.fullmatch(r"\d{1,5}", words[1]):
        raise Refused(line, "the data aren't in the form \\# LENGTH HEX: run dig with +unknownformat, and without +nocrypto")
    digits = "".join(words[2:])
    if not re.fullmatch(r"([0-9a-fA-F]{2})*", digits) or len(digits) != 2 * int(words[1]):
        raise Refused(line, "the data aren't %s octets in hex" % words[1])
    return bytes.fromhex(digits)


def question_of(line, words):
    parts = words[1:].split()
    if len(parts) != 3 or class_of(parts[1]) is None or type_of(parts[2]) is None:
        raise Refused(line, "no question: %s" % words.strip())
    return Question(name_of(line, parts[0]), type_of(parts[2]), class_of(parts[1]))


def moment_of(month, day, clock, zone, year):
    """The seconds of dig's last line, None where its zone of time isn't UTC."""
    if zone not in ("UTC", "GMT") or month not in MONTHS:
        return None
    return seconds_of("%s-%02d-%02dT%s" % (year, MONTHS.index(month) + 1, int(day), clock))


def replies_in(text):
    """The replies of a text, in order. Of lines that begin with `;` only those of header, sections, EDNS, question and moment say something."""
    replies, reply = [], None
    for line, words in whole_lines(text):
        header, section = HEADER.match(words), SECTION.match(words)
        begins = header or section and section[1] == "QUESTION" and (reply is None or reply.sections["QUESTION"])
        if begins:
            replies += [reply.done()] if reply else []
            reply = Growing(line)
        read_line(reply, line, words, header, section)
    return replies + ([reply.done()] if reply else [])


def read_line(reply, line, words, header, section):
    flags, edns, when = FLAGS.match(words), EDNS.match(words), WHEN.match(words)
    if reply is None:
        if words.strip() and not words.startswith(";"):
            raise Refused(line, "a record before the first reply: %s" % words.strip())
    elif header:
        reply.header(line, header[2], header[3])
    elif flags:
        reply.flagged(flags[1], flags.groups()[1:])
    elif section:
        reply.section = section[1]
    elif edns:
        reply.edns(*edns.groups())
    elif when:
        reply.when = moment_of(*when.groups())
    elif words.startswith(";"):
        if reply.section == "QUESTION" and words[1:2] not in ("", " ", ";"):
            reply.sections["QUESTION"].append(question_of(line, words))
    elif words.strip():
        if reply.section not in ("ANSWER", "AUTHORITY", "ADDITIONAL"):
            raise Refused(line, "a record outside of a section: %s" % words.strip())
        reply.sections[reply.section].append(record_of(line, words))

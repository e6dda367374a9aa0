"""Scripts of `dsec validate`, and what it writes for them."""

import base64
import collections
import re

from data import DNSKEY, DS
from wire import Record, Unreadable, lowered, message_from
from words import class_of, name_from_text, type_of

Link = collections.namedtuple("Link", "word kind owner rclass rtype via key rrsig records")
Outcome = collections.namedtuple("Outcome", "index state code text questions links")
# A script: its anchors, its replies by name and type (None for a question that fails), and its messages with their moments.
Script = collections.namedtuple("Script", "anchors replies messages")

VERDICT = re.compile(r'(\d+) (Secure|Insecure|Bogus|Indeterminate) (\S+) "(.*)" questions=(\d+)')
ERROR = re.compile(r"(\d+) error:(\w+)")


class Refused(Exception):
    """A line that is none of an output or a script."""


def outcomes_in(text):
    """The outcomes of an output, in order, each with its links."""
    outcomes = []
    for line, words in enumerate(text.splitlines(), 1):
        verdict, error = VERDICT.fullmatch(words), ERROR.fullmatch(words)
        if verdict:
            outcomes.append(Outcome(int(verdict[1]), verdict[2], verdict[3], verdict[4], int(verdict[5]), []))
        elif error:
            outcomes.append(Outcome(int(error[1]), "error", "-", error[2], 0, []))
        elif words.split(" ")[0] in ("link", "used") and outcomes:
            outcomes[-1].links.append(link_of(line, words.split(" ")))
        else:
            raise Refused("line %d is none that `dsec validate` writes for a message: %s" % (line, words[:60]))
    return outcomes


def link_of(line, words):
    try:
        word, _, kind, owner, rclass, rtype, via, key, rrsig, records = words
        return Link(word, kind, name_from_text(owner), int(rclass), int(rtype), None if via == "-" else bytes.fromhex(via),
                    bytes.fromhex(key), bytes.fromhex(rrsig), [bytes.fromhex(data) for data in records.split(",")])
    except (ValueError, Unreadable):
        raise Refused("line %d isn't a whole link" % line) from None


def script_in(text):
    """The script of a text that `dsec` has taken. Of an anchor's line it reads records of DNSKEY and DS on one line."""
    script, moment = Script([], {}, []), 0
    for line, words in enumerate(text.split("\n"), 1):
        parts = words.split()
        if not parts or words.startswith("#"):
            continue
        try:
            if parts[0] == "now":
                moment = int(parts[1])
            elif parts[0] == "anchor":
                script.anchors.extend(anchor_of(parts[1:]))
            elif parts[0] == "reply":
                octets = None if parts[-1] == "fail" and len(parts) == 4 else bytes.fromhex(parts[3] if len(parts) == 4 else "")
                script.replies.setdefault((lowered(name_from_text(parts[1])), type_of(parts[2])), octets)
            elif parts[0] == "message":
                script.messages.append((moment, bytes.fromhex("".join(parts[1:]))))
        except (ValueError, IndexError, Unreadable):
            raise Refused("line %d of the script can't be read here" % line) from None
    return script


def anchor_of(words):
    """The record of an anchor's line, if it has one of type DNSKEY or DS."""
    words = [word for word in " ".join(words).split(";")[0].split() if word not in ("(", ")")]
    for place, word in enumerate(words[1:4], 1):
        rtype = type_of(word)
        if rtype in (DS, DNSKEY) and class_of(word) is None and not word.isdigit():
            rest = words[place + 1:]
            if rest[0] == "\\#":
                data = bytes.fromhex("".join(rest[2:]))
            elif rtype == DNSKEY:
                data = numbers(rest[:3], (2, 1, 1)) + base64.b64decode("".join(rest[3:]))
            else:
                data = numbers(rest[:3], (2, 1, 1)) + bytes.fromhex("".join(rest[3:]))
            return [Record(name_from_text(words[0]), rtype, 1, 0, data)]
    return []


def numbers(words, sizes):
    return b"".join(int(word).to_bytes(size, "big") for word, size in zip(words, sizes))


def reply_for(script, name, rtype):
    """The reply to a question, None where it fails. Unreadable where it can't be read."""
    octets = script.replies.get((lowered(name), rtype))
    return None if octets is None else message_from(octets)

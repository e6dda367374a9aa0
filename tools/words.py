"""Names, types, numbers and moments as people write them, and as tools show them."""

import datetime
import re

from wire import Unreadable

TYPES = {1: "A", 2: "NS", 5: "CNAME", 6: "SOA", 12: "PTR", 13: "HINFO", 15: "MX", 16: "TXT", 28: "AAAA", 33: "SRV", 35: "NAPTR",
         39: "DNAME", 41: "OPT", 43: "DS", 46: "RRSIG", 47: "NSEC", 48: "DNSKEY", 50: "NSEC3", 51: "NSEC3PARAM", 52: "TLSA", 59: "CDS",
         60: "CDNSKEY", 64: "SVCB", 65: "HTTPS", 255: "ANY", 257: "CAA"}
CLASSES = {1: "IN", 3: "CH", 4: "HS", 255: "ANY"}
# The registry of DNSSEC algorithms (RFC 8624 3.1), and that of digests (RFC 8624 3.3).
ALGORITHMS = {1: "RSAMD5", 3: "DSA", 5: "RSASHA1", 6: "DSA-NSEC3-SHA1", 7: "RSASHA1-NSEC3-SHA1", 8: "RSASHA256", 10: "RSASHA512",
              12: "ECC-GOST", 13: "ECDSAP256SHA256", 14: "ECDSAP384SHA384", 15: "ED25519", 16: "ED448"}
DIGESTS = {1: "SHA-1", 2: "SHA-256", 3: "GOST", 4: "SHA-384"}
SUPPORTED_ALGORITHMS = (5, 7, 8, 10, 13)
SUPPORTED_DIGESTS = (1, 2, 4)
EPOCH = datetime.datetime(1970, 1, 1, tzinfo=datetime.timezone.utc)
PLAIN = set(b"abcdefghijklmnopqrstuvwxyzABCDEFGHIJKLMNOPQRSTUVWXYZ0123456789-_*")


def name_from_text(text):
    """The labels of a name: `\\` and three digits, or `\\` and one character, are an octet (RFC 1035 5.1)."""
    if text == ".":
        return ()
    labels, label = [], b""
    for piece in re.findall(r"\\\d\d\d|\\.|.", text, re.S):
        if piece == ".":
            labels.append(label)
            label = b""
        else:
            label += octet_of(piece, text)
    labels += [label] if not text.endswith(".") or text.endswith("\\.") else []
    if not all(1 <= len(label) <= 63 for label in labels) or not labels or sum(map(len, labels)) + len(labels) > 254:
        raise Unreadable("%s is no name" % text)
    return tuple(labels)


def octet_of(piece, text):
    if len(piece) == 1 and piece != "\\":
        return piece.encode("utf-8")
    if len(piece) == 4 and int(piece[1:]) < 256:
        return bytes([int(piece[1:])])
    if len(piece) == 2:
        return piece[1:].encode("utf-8")
    raise Unreadable("%s has a \\ that escapes nothing" % text)


def name_text(labels):
    def shown(label):
        return "".join(chr(octet) if octet in PLAIN else "\\%03d" % octet for octet in label)
    return "".join(shown(label) + "." for label in labels) or "."


def number_of(word, names, prefix):
    """The number of a type's or a class's word, None where it is none (RFC 3597 5)."""
    word = word.upper()
    for value, name in names.items():
        if name == word:
            return value
    if re.fullmatch(prefix + r"\d{1,5}", word) and int(word[len(prefix):]) < 65536:
        return int(word[len(prefix):])
    return None


def type_of(word):
    return number_of(word, TYPES, "TYPE")


def class_of(word):
    return number_of(word, CLASSES, "CLASS")


def type_text(rtype):
    return TYPES.get(rtype, "TYPE%d" % rtype)


def class_text(rclass):
    return CLASSES.get(rclass, "CLASS%d" % rclass)


def algorithm_text(algorithm):
    return "%d %s" % (algorithm, ALGORITHMS.get(algorithm, "unknown"))


def seconds_of(word):
    """The seconds since 1970 that a word says: at most ten digits are these seconds, 14 digits a date as RRSIG records have it, in UTC
    (RFC 4034 3.2); else a date by ISO 8601, in UTC where no offset stands behind it."""
    if re.fullmatch(r"\d{1,10}", word):
        return int(word)
    try:
        if re.fullmatch(r"\d{14}", word):
            moment = datetime.datetime.strptime(word, "%Y%m%d%H%M%S")
        else:
            moment = datetime.datetime.fromisoformat(re.sub(r"[zZ]$", "+00:00", word))
    except ValueError:
        raise Unreadable("%s is no moment: write seconds since 1970, 20261128090000 or 2026-11-28T09:00:00Z" % word) from None
    if moment.tzinfo is None:
        moment = moment.replace(tzinfo=datetime.timezone.utc)
    return int((moment - EPOCH).total_seconds())


def date_text(seconds, form="%Y-%m-%d %H:%M:%S"):
    """The date of seconds since 1970, in UTC."""
    try:
        return (EPOCH + datetime.timedelta(seconds=seconds)).strftime(form)
    except OverflowError:
        return "%d seconds since 1970" % seconds


def around(moment, seconds):
    """The moment nearest to another whose seconds modulo 2^32 are these: so signatures say theirs (RFC 4034 3.1.5)."""
    return moment + (seconds - moment + 2 ** 31) % 2 ** 32 - 2 ** 31

"""Scripts and zones of the worst, and the tables of these."""

import collections
import itertools

from making import KEY, ZONE, address, keys, message, record, text_of
from worst import ADDRESS, ANCHOR, OTHER_TAG, TEXT, WITH_A, Kind, keys_of_one_tag
from worst_denials import by_nsec


def lines(octets, head, line, tail=""):
    """As many lines as so many octets hold between others."""
    left, chosen = octets - len(head) - len(tail), [head]
    for index in itertools.count():
        one = line(index)
        left -= len(one)
        if left < 0:
            break
        chosen.append(one)
    return "".join(chosen) + tail


def script_of(line, share, keyset=None):
    """A script of a share of the greatest size: such lines before the reply for the anchor's keys and a message."""
    tail = "reply example. DNSKEY %s\nmessage %s\n" % ((keyset or keys()).hex(), address(b"www", ZONE, KEY).hex())
    return lines(int(share * TEXT), "now 500\nanchor %s\n" % ANCHOR, line, tail)


def short_moments(share):
    tail = "message %s\n" % bytes(12).hex()
    return lines(int(share * TEXT), "", lambda _: "now 1\n", tail)


def kept_nodes(share):
    """2,000 names within a zone with many keys, each asked for once in one moment."""
    names = [b"\4%04x" % index + ZONE for index in range(int(share * 2000))]
    replies = ["reply %s DS %s\n" % (text_of(name), by_nsec(name, WITH_A).hex()) for name in names]
    messages = ["message %s\n" % message(name, 1, [record(name, 1, ADDRESS)]).hex() for name in names]
    return "now 500\nanchor %s\nreply example. DNSKEY %s\n" % (ANCHOR, keys_of_one_tag(1, OTHER_TAG).hex()) + "".join(replies + messages)


def anchors_and_keys(share):
    """Anchors of a tag and algorithm before the one that admits a key, and keys of another tag."""
    line = "anchor example. DS %d 13 2 00\n" % (OTHER_TAG + 1)
    text = script_of(lambda _: line, share, keys_of_one_tag(share, OTHER_TAG))
    own = "anchor %s\n" % ANCHOR
    return text.replace(own, "", 1).replace("reply", own + "reply", 1)


def short_messages(share):
    return lines(int(share * TEXT), "now 500\nanchor %s\n" % ANCHOR, lambda _: "message %s\n" % bytes(12).hex())


SCRIPTS = (
    Kind("messages of 12 octets", "0 error:FormError", short_messages),
    Kind("replies for one question", "0 Secure", lambda share: script_of(lambda _: "reply a A\n", share)),
    Kind("replies for all types of a name", "0 Secure", lambda share: script_of(lambda index: "reply a TYPE%d\n" % (index % 65536), share)),
    Kind("replies for many names", "0 Secure", lambda share: script_of(lambda index: "reply %x A\n" % index, share)),
    Kind("anchors at one place", "0 Secure", lambda share: script_of(lambda _: "anchor example. NS .\n", share)),
    Kind("anchors at as many places", "0 Secure", lambda share: script_of(lambda index: "anchor %x.a. NS .\n" % index, share)),
    # Each key is compared with each anchor, as above.
    Kind("DS anchors at one place, keys of another tag", "0 Secure", anchors_and_keys, lambda share: share ** 2),
    Kind("2,000 names under many keys", "0 Bogus 6", kept_nodes),
    Kind("moments", "0 error:FormError", short_moments),
)

APEX = "bench. SOA . . 1 2 3 4 5\n$ORIGIN bench.\n"

# What a kind of zone is called; by what it is signed; how many names or records it has beside its apex; the line of each; and how many lines are
# written for so many.
Zone = collections.namedtuple("Zone", "name words count line written")
SIGN, SIGN3 = ["sign", "bench.", "0102", "0", "1000", "nsec"], ["sign", "bench.", "0102", "0", "1000", "nsec3"]
# The program that chains takes iterations and salt.
CHAIN = ["nsec3", "100", "aa" * 255, "0", "bench.", "0102"]
MANY = 999990


def spelled(index):
    """Four labels of a letter, of which the first changes fastest."""
    return "".join(chr(97 + index // power % 26) + "." for power in (1, 26, 676, 17576))


def below_letters(count):
    """How many names stand above so many names of 124 labels that differ by the first four, and below the apex."""
    return sum(-(-count // power) for power in (26, 676, 17576)) + 119


def labels_of_its_own(labels):
    return lambda index: "a." * (labels - 1) + "n%x A 1.2.3.4\n" % index


def letters(index):
    """Names of 255 octets in labels of one letter."""
    return spelled(index) + "a." * 118 + "a A 1.2.3.4\n"


ZONES = (
    Zone("addresses at one name, all the same", SIGN, MANY, lambda _: "\tA 1.2.3.4\n", lambda count: 8),
    Zone("addresses at one name", SIGN, MANY,
         lambda index: "\tA 1.%d.%d.%d\n" % (index >> 16, index >> 8 & 255, index & 255), lambda count: count + 7),
    Zone("records of six octets at one name, all the same", SIGN, MANY, lambda _: "\tNS .\n", lambda count: 8),
    Zone("delegations of short names, by NSEC", SIGN, MANY, lambda index: "%x NS .\n" % index, lambda count: 3 * count + 6),
    Zone("delegations of short names, by NSEC3", SIGN3, MANY, lambda index: "%x NS .\n" % index, lambda count: 3 * count + 8),
    Zone("short names, by NSEC", SIGN, MANY // 2, lambda index: "%x A 1.2.3.4\n" % index, lambda count: 4 * count + 6),
    Zone("short names, by NSEC3", SIGN3, MANY // 2, lambda index: "%x A 1.2.3.4\n" % index, lambda count: 4 * count + 8),
    Zone("20 labels of its own at each name, by NSEC", SIGN, 10000, labels_of_its_own(20), lambda count: 4 * count + 6),
    Zone("20 labels of its own at each name, by NSEC3", SIGN3, 10000, labels_of_its_own(20), lambda count: 42 * count + 8),
    Zone("120 labels of its own at each name, by NSEC3", SIGN3, 2000, labels_of_its_own(120), lambda count: 242 * count + 8),
    Zone("names of 124 labels, by NSEC", SIGN, 60000, letters, lambda count: 4 * count + 6),
    Zone("names of 124 labels, by NSEC3", SIGN3, 60000, letters, lambda count: 4 * count + 2 * below_letters(count) + 8),
    Zone("a name with 60,000 types", SIGN, 60000, lambda index: "\tTYPE%d \\# 0\n" % (index + 1000), lambda count: 2 * count + 6),
    Zone("names chained by NSEC3, 100 iterations and a salt of 255 octets", CHAIN, 20000,
         lambda index: "%x A 1.2.3.4\n" % index, lambda count: count + 2),
)

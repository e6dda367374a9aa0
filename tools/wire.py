"""Names, records and messages as octets (RFC 1035 3 and 4), with the names in record data written out."""

import collections

# What a type's data are made of (RFC 1035 3.3, RFC 2782 and others): so many octets, a name, a string of octets; the rest are octets.
LAYOUTS = {2: ["name"], 5: ["name"], 6: ["name", "name"], 12: ["name"], 14: ["name", "name"], 15: [2, "name"], 17: ["name", "name"],
           18: [2, "name"], 21: [2, "name"], 26: [2, "name", "name"], 33: [6, "name"], 35: [4, "string", "string", "string", "name"],
           36: [2, "name"], 39: ["name"], 46: [18, "name"], 47: ["name"]}

Question = collections.namedtuple("Question", "name rtype rclass")
Record = collections.namedtuple("Record", "owner rtype rclass ttl data")
Message = collections.namedtuple("Message", "id flags questions answer authority additional")


class Unreadable(Exception):
    """Octets or a text that say no name, record or message."""


def number(value, octets):
    return value.to_bytes(octets, "big")


def name_from(octets, at):
    """The labels of the name at a place, and the place behind it (RFC 1035 4.1.4)."""
    labels, behind, least = [], None, at
    while True:
        if at >= len(octets):
            raise Unreadable("a name goes past the end")
        head = octets[at]
        if head >= 192:
            place = int.from_bytes(octets[at:at + 2], "big") - 0xC000
            if at + 2 > len(octets) or place >= least:
                raise Unreadable("a pointer leads nowhere before it")
            behind = at + 2 if behind is None else behind
            at = least = place
        elif head >= 64:
            raise Unreadable("no label begins by the octet %d" % head)
        elif head == 0:
            break
        else:
            labels.append(bytes(octets[at + 1:at + 1 + head]))
            at += 1 + head
    if sum(len(label) + 1 for label in labels) > 254:
        raise Unreadable("a name of more than 255 octets")
    return tuple(labels), at + 1 if behind is None else behind


def name_octets(labels):
    return b"".join(bytes([len(label)]) + label for label in labels) + b"\0"


def is_below(name, zone):
    """At or below: the zone's labels are the name's last ones, the case of letters aside."""
    below, above = lowered(name), lowered(zone)
    return below[len(below) - len(above):] == above


def lowered(labels):
    return tuple(label.lower() for label in labels)


def plain_data(rtype, octets, at, end):
    """The data between two places, each name written out."""
    out = b""
    for part in LAYOUTS.get(rtype, []):
        if part == "name":
            labels, at = name_from(octets[:end], at)
            out += name_octets(labels)
        else:
            count = part if part != "string" else 1 + (octets[at] if at < end else 0)
            out += octets[at:at + count]
            at += count
    if at > end:
        raise Unreadable("data of type %d end before their layout does" % rtype)
    return out + octets[at:end]


def question_from(octets, at):
    labels, at = name_from(octets, at)
    if at + 4 > len(octets):
        raise Unreadable("a question goes past the end")
    return Question(labels, int.from_bytes(octets[at:at + 2], "big"), int.from_bytes(octets[at + 2:at + 4], "big")), at + 4


def record_from(octets, at):
    owner, at = name_from(octets, at)
    head = octets[at:at + 10]
    end = at + 10 + int.from_bytes(head[8:10], "big")
    if len(head) < 10 or end > len(octets):
        raise Unreadable("a record goes past the end")
    rtype, rclass, ttl = (int.from_bytes(head[first:last], "big") for first, last in ((0, 2), (2, 4), (4, 8)))
    return Record(owner, rtype, rclass, ttl, plain_data(rtype, octets, at + 10, end)), end


def message_from(octets):
    if len(octets) < 12:
        raise Unreadable("%d octets, where a header has twelve" % len(octets))
    head = [int.from_bytes(octets[at:at + 2], "big") for at in range(0, 12, 2)]
    at, sections = 12, []
    for reader, count in zip((question_from, record_from, record_from, record_from), head[2:]):
        items = []
        for _ in range(count):
            item, at = reader(octets, at)
            items.append(item)
        sections.append(items)
    return Message(head[0], head[1], *sections)


def record_octets(record):
    return (name_octets(record.owner) + number(record.rtype, 2) + number(record.rclass, 2) + number(record.ttl, 4)
            + number(len(record.data), 2) + record.data)


def message_octets(message):
    """The message without compression."""
    out = number(message.id, 2) + number(message.flags, 2)
    out += b"".join(number(len(section), 2) for section in message[2:])
    for asked in message.questions:
        out += name_octets(asked.name) + number(asked.rtype, 2) + number(asked.rclass, 2)
    for section in message[3:]:
        out += b"".join(record_octets(record) for record in section)
    if len(out) > 65535:
        raise Unreadable("a message of %d octets, where 65535 are the most" % len(out))
    return out

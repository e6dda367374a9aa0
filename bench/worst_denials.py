"""Messages and replies with as many denials as have room, and ways down that are long."""

import hashlib

from making import KEY, ZONE, hash_of, in_base32hex, label_count, message, number, record, replies_below, signature, signed, text_of
from worst import (ADDRESS, ANCHOR, HASHED_A, NAME, OTHER_TAG, SOA, UP, WITH_A, WITH_NS, Judged, at_anchor, deep, each, fitting,
                   keys_of_one_tag, label, number_of, pointer, room)


def hashed(index, iterations, salt, up, is_signed):
    """An NSEC3 record that stands for no name and covers none, with parameters of its own, and its signature."""
    owner = hashlib.sha1(number(index, 4)).digest()
    data = hashed_data(owner, iterations, salt + number(index, 2), b"")
    front = b"\x20" + in_base32hex(owner)
    whole = [record(front + up, 50, data)]
    return whole + [record(front + up, 46, signature(50, 2, [record(front + ZONE, 50, data)]))] if is_signed else whole


def hashed_data(owner, iterations, salt, types):
    """The data of an NSEC3 record whose next hash is the one behind its own (RFC 5155 3.2)."""
    after = (number_of(owner) + 1) % (1 << 160)
    return bytes([1, 0]) + number(iterations, 2) + bytes([len(salt)]) + salt + bytes([20]) + number(after, 20) + types


def denied(share, name, sets):
    """A reply that denies a name by the SOA set and as many of these sets as have room."""
    soa = signed(ZONE, 6, [SOA], ZONE, KEY)
    return message(name, 1, (), (), soa + fitting(room(share, name, *soa), sets), 3)


def denied_by_hashes(iterations, share):
    name = deep(123)
    return at_anchor(denied(share, name, each(lambda index: hashed(index, iterations, bytes(253), pointer(name), True))))


def wildcard_by_hashes(share):
    """An answer that a wildcard gives, whose next closer name none of the records denies."""
    answer = [record(b"\xc0\x0c", 1, ADDRESS), record(b"\xc0\x0c", 46, signature(1, 1, [record(b"\1*" + ZONE, 1, ADDRESS)]))]
    sets = each(lambda index: hashed(index, 100, bytes(253), UP, True))
    return at_anchor(message(NAME, 1, answer, (), fitting(room(share, NAME, *answer), sets)))


def without_zone(share, name):
    """A reply for DS: no zone begins at the name, by the last of its NSEC3 records, which are as many as have room."""
    owner = hash_of(name, 0)
    own = record(b"\x20" + in_base32hex(owner) + ZONE, 50, hashed_data(owner, 0, b"", HASHED_A))
    last = [own, record(b"\x20" + in_base32hex(owner) + ZONE, 46, signature(50, 2, [own]))]
    up = pointer(name)
    return message(name, 43, (), (), fitting(room(share, name, *last), each(lambda index: hashed(index, 100, bytes(253), up, False))) + last)


def walk_by_hashes(share):
    """An address 120 names below the anchor, in a zone of its own as its signature says, and a reply for DS at each of these names."""
    name = deep(120)
    own = [record(name, 1, ADDRESS)]
    octets = message(name, 1, own + [record(name, 46, signature(1, label_count(name), own, zone=name))])
    return Judged(octets, replies_below(0) + [(text_of(deep(labels)), "DS", without_zone(share, deep(labels))) for labels in range(1, 121)],
                  [ANCHOR])


def by_nsec(name, types):
    """A reply for DS that the name's own NSEC record denies."""
    return message(name, 43, (), (), signed(name, 47, [b"\1!" + name + types], ZONE, KEY))


def deep_insecure(share):
    """As many names with an address as have room, below a delegation without DS, which is 119 names below the anchor."""
    zone = deep(119)
    name = label(0) + zone
    octets = message(name, 1, fitting(room(share, name), each(lambda index: [record(label(index) + pointer(name, zone), 1, ADDRESS)])))
    replies = [(text_of(deep(labels)), "DS", by_nsec(deep(labels), WITH_A if labels < 119 else WITH_NS)) for labels in range(1, 120)]
    return Judged(octets, replies_below(0) + replies, [ANCHOR])


def walk_under_keys(share):
    """An address 119 names below the anchor, all within its zone, which has as many keys as have room."""
    name = deep(119)
    replies = [("example.", "DNSKEY", keys_of_one_tag(share, OTHER_TAG))]
    replies += [(text_of(deep(labels)), "DS", by_nsec(deep(labels), WITH_A)) for labels in range(1, 120)]
    return Judged(message(name, 1, [record(name, 1, ADDRESS)]), replies, [ANCHOR])


def nsec_set(front, base, up, next_name):
    own = record(front + base, 47, next_name + WITH_A)
    return [record(front + up, 47, own[len(front + base) + 10:]), record(front + up, 46, signature(47, label_count(front + base), [own]))]


def denied_by_nsecs(share):
    name = b"\4zzzz" + ZONE
    return at_anchor(denied(share, name, each(lambda index: nsec_set(label(index), ZONE, pointer(name), b"\4" + label(index)[1:] + b"a" + ZONE))))


def denied_by_long_nsecs(share):
    """Owners and next names have 122 labels above the zone's, as the name has that is asked for: they tell it apart at the last."""
    name, base = deep(123), deep(121)
    return at_anchor(denied(share, name, each(lambda index: nsec_set(label(index), base, pointer(name, base), label(index + 1) + base))))

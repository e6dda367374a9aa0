"""Messages with as many aliases as have room, and such below many zones."""

import hashlib

from making import (KEY, ZONE, address, around_hash, hash_of, in_base32hex, label_count, message, number, record, replies_below, signature,
                    signed, tag_of, text_of)
from worst import ADDRESS, ANCHOR, HASHED_A, NAME, OTHER_TAG, UP, Judged, at_anchor, each, fitting, keys_of_one_tag, label, pointer, room
from worst_denials import hashed


def alias(owner, up, rtype, target, is_signed=True):
    """An alias and its signature, where it has one; the owner's first labels stand before a pointer."""
    own = record(owner + ZONE, rtype, target)
    whole = [record(owner + up, rtype, target)]
    return whole + [record(owner + up, 46, signature(rtype, label_count(owner + ZONE), [own]))] if is_signed else whole


def cname_chain(share):
    sets = each(lambda index: alias(label(index), UP, 5, label(index + 1) + ZONE))
    return at_anchor(message(NAME, 1, fitting(room(share, NAME), sets)))


def cname_loops(share):
    sets = each(lambda index: alias(label(index), UP, 5, label(index ^ 1) + ZONE))
    return at_anchor(message(NAME, 1, fitting(room(share, NAME), sets)))


def dname_onto_itself(share):
    """A DNAME that makes each name longer, behind as many others as have room, which lead nowhere."""
    own = alias(b"\1d", pointer(b"\3www\1d" + ZONE), 39, b"\x15" + b"d" * 21 + b"\1d" + ZONE)
    name = b"\3www\1d" + ZONE
    sets = each(lambda index: alias(label(index), pointer(name), 39, label(index + 1) + ZONE))
    return at_anchor(message(name, 1, fitting(room(share, name, *own), sets) + own))


def bare_cnames(count, is_signed, share):
    """CNAME records without signatures, of which none follows from any of the DNAME records before them: so many, or as many as DNAME records."""
    def cname(index):
        return alias(b"\1w" + label(index), UP, 5, pointer(NAME), False)

    def dname(index):
        return alias(label(index), UP, 39, label(index + 1) + ZONE, is_signed)
    if count is None:
        half = room(share, NAME) // 2
        return at_anchor(message(NAME, 1, fitting(half, each(dname)) + fitting(half, each(cname))))
    last = [one for index in range(count) for one in cname(index)]
    return at_anchor(message(NAME, 1, fitting(room(share, NAME, *last), each(dname)) + last))


def expanded(zone, key, up):
    """11 CNAMEs that wildcards give, which lead on to an address; and for each the NSEC3 record that denies its owner."""
    def own(rtype, index, labels, owner, data):
        signed_by = signature(rtype, labels, [record(owner, rtype, data)], tag_of(key), True, zone, key)
        return [record(label(index) + up, rtype, data), record(label(index) + up, 46, signed_by)]
    answers, denials = [], []
    for index in range(11):
        answers += own(5, index, label_count(zone), b"\1*" + zone, label(index + 1) + zone)
        before, after = around_hash(hash_of(label(index) + zone, 0))
        denials += signed(b"\x20" + in_base32hex(before) + zone, 50, [bytes([1, 0, 0, 0, 0, 20]) + after + HASHED_A], zone, key)
    return answers + own(1, 11, label_count(zone) + 1, label(11) + zone, ADDRESS), denials


def expanded_by_hashes(share):
    """These, where each is denied by the last of as many NSEC3 records as have room."""
    answers, denials = expanded(ZONE, KEY, UP)
    sets = each(lambda index: hashed(index, 100, bytes(253), UP, True))
    return at_anchor(message(NAME, 1, answers, (), fitting(room(share, NAME, *answers, *denials), sets) + denials))


def zones_below(count):
    """The lowest of so many zones below one another with its key, and their replies, with as many keys as have room each."""
    above, replies = (ZONE, KEY), replies_below(0)
    for index in range(1, count + 1):
        zone, key = b"\1z" * index + ZONE, KEY[:4] + number(index, 2)
        data = number(tag_of(key), 2) + bytes([13, 2]) + hashlib.sha256(zone + key).digest()
        replies += [(text_of(zone), "DS", message(zone, 43, signed(zone, 43, [data], *above))),
                    (text_of(zone), "DNSKEY", keys_of_one_tag(1, OTHER_TAG, 13, zone, key))]
        above = zone, key
    return above, replies


def many_zones(share):
    """An address 60 zones below the anchor."""
    lowest, replies = zones_below(int(share * 60))
    return Judged(address(b"www", *lowest), replies, [ANCHOR])


def long_proofs(share):
    """The aliases and their denials 20 zones below the anchor: the verdict has the keys of all zones for each alias, each denial and the address."""
    (zone, key), replies = zones_below(int(share * 20))
    name = label(0) + zone
    answers, denials = expanded(zone, key, pointer(name, zone))
    return Judged(message(name, 1, answers, (), denials), replies, [ANCHOR])

"""Sets of records with their signatures, and what is wrong with a signature, by the tests of RFC 4035 5.3.1 and the stand-in's verifier.

These tests say where to look. What a message is judged to be is the program's to say."""

import collections
import hashlib

from data import DS, NSEC, RRSIG, rrsig_from
from wire import LAYOUTS, is_below, lowered, name_from, name_octets, number
from words import around, date_text

Set = collections.namedtuple("Set", "owner rtype rclass records signatures")
# What came of a set under a zone's keys: the signature and key that are good, or why none is.
Finding = collections.namedtuple("Finding", "signature key fault")
# The moment of the tests, and whether the stand-in's verifier is among them.
Tests = collections.namedtuple("Tests", "moment verified")
# So many bad signatures end the search: one more than the default of `max_bad_signatures`.
MOST_BAD = 2


def sets_in(records):
    """The records of a section by owner, class and type, each with the RRSIG records over it, in order and without duplicates."""
    found = {}
    for record in records:
        signature = rrsig_from(record.data) if record.rtype == RRSIG else None
        rtype = signature.covered if signature else record.rtype
        one = found.setdefault((lowered(record.owner), record.rclass, rtype), Set(record.owner, rtype, record.rclass, [], []))
        if signature and signature not in one.signatures:
            one.signatures.append(signature)
        elif not signature and canonical_data(rtype, record.data) not in [canonical_data(rtype, data) for data in one.records]:
            one.records.append(record.data)
    return list(found.values())


def canonical_data(rtype, data):
    """The data with their names in lower case, but NSEC's (RFC 4034 6.2, RFC 6840 5.1)."""
    if rtype == NSEC:
        return data
    out, at = b"", 0
    for part in LAYOUTS.get(rtype, []):
        if part == "name":
            labels, at = name_from(data, at)
            out += name_octets(lowered(labels))
        else:
            count = part if part != "string" else 1 + data[at]
            out += data[at:at + count]
            at += count
    return out + data[at:]


def signed_octets(signature, one):
    """What a signature over a set is over (RFC 4034 3.1.8.1)."""
    owner = lowered(one.owner)
    if signature.labels < len(owner):
        owner = (b"*",) + owner[len(owner) - signature.labels:]
    out = signature.head + name_octets(lowered(signature.signer))
    for data in sorted(canonical_data(one.rtype, data) for data in one.records):
        out += (name_octets(owner) + number(one.rtype, 2) + number(one.rclass, 2) + number(signature.ttl, 4)
                + number(len(data), 2) + data)
    return out


def is_stand_in(signature, one, key):
    """Whether the signature is the stand-in's: the SHA-256 of the key's data and what is signed."""
    return hashlib.sha256(key.data + signed_octets(signature, one)).digest() == signature.signature


def period_text(signature, moment):
    first, last = around(moment, signature.inception), around(moment, signature.expiration)
    return "%s to %s" % (date_text(first), date_text(last))


def fault_of(signature, one, key, tests):
    """What is wrong with a signature by a key, None where nothing is."""
    if not key.flags & 0x0100 or key.protocol != 3:
        return "key %d is no zone key of protocol 3" % key.tag
    if signature.labels > len(one.owner):
        return "the signature by key %d is for a longer name" % key.tag
    first, last = around(tests.moment, signature.inception), around(tests.moment, signature.expiration)
    if last < first:
        return "the signature by key %d ends before it begins" % key.tag
    if tests.moment > last:
        return "the signature by key %d has expired at %s" % (key.tag, date_text(last))
    if tests.moment < first:
        return "the signature by key %d begins only at %s" % (key.tag, date_text(first))
    if tests.verified and not is_stand_in(signature, one, key):
        return "the signature by key %d isn't the stand-in's over this set" % key.tag
    return None


def look_at(one, zone, keys, tests):
    """The finding of a set under a zone's keys, after as many bad signatures as the program tries."""
    fault = "no signature by a key of these" if one.signatures else "no signature"
    faults = []
    for signature in one.signatures:
        for key in keys:
            if (lowered(signature.signer), signature.algorithm, signature.tag) == (lowered(zone), key.algorithm, key.tag):
                wrong = fault_of(signature, one, key, tests)
                if wrong is None:
                    return Finding(signature, key, None)
                faults.append(wrong)
                if len(faults) == MOST_BAD:
                    return Finding(None, None, "%s, and no more are tried" % wrong)
    return Finding(None, None, faults[0] if faults else fault)


def signer_of(one, island):
    """The zone that is to have signed a set: the signer of its first signature that may count, else the owner; of a DS set one above."""
    lowest = one.owner[1:] if one.rtype == DS and one.owner else one.owner
    for signature in one.signatures:
        if is_below(lowest, signature.signer) and is_below(signature.signer, island):
            return signature.signer
    return lowest


def is_expansion(one, signature):
    """Whether a set is a wildcard's, under another name (RFC 4034 3.1.3)."""
    return signature.labels < len(one.owner) - (one.owner[:1] == (b"*",))

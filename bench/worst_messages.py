"""Messages that are rewritten and messages that are hard to read, and the table of all that are judged."""

from making import KEY, OPT, ZONE, address, keys, label_count, message, number, record, signature, signed
from worst import ADDRESS, ANCHOR, MOST, NAME, UP, Judged, Kind, at_anchor, deep, each, fitting, label, n_log_n, room
from worst_aliases import bare_cnames, cname_chain, cname_loops, dname_onto_itself, expanded_by_hashes, long_proofs, many_zones
from worst_denials import (deep_insecure, denied_by_hashes, denied_by_long_nsecs, denied_by_nsecs, walk_by_hashes, walk_under_keys,
                           wildcard_by_hashes)
from worst_keys import (ds_of_one_tag, groups_among_keys, groups_of_one_tag, signatures_of_another_algorithm,
                        signatures_of_another_long_zone, signatures_of_another_zone, signatures_of_one_tag)


def longer(one, owner):
    """A record with a TTL of 100,000 seconds, where its signature says 3600."""
    return one[:len(owner) + 4] + number(100000, 4) + one[len(owner) + 8:]


def rewritten_groups(share):
    """Names with an address that stands there twice, and with TTLs that are to be cut."""
    def owned(index):
        owner = label(index) + UP
        own = longer(record(owner, 1, ADDRESS), owner)
        signed_by = longer(record(owner, 46, signature(1, 2, [record(label(index) + ZONE, 1, ADDRESS)])), owner)
        return [own, own, signed_by]
    return at_anchor(message(NAME, 1, fitting(room(share, NAME), each(owned))))


def rewritten_set(share):
    """The same in one set, and with as many additional records; where it is rewritten its names are written out."""
    owner = b"\xc0\x0c"
    count = (room(share, NAME) - 100) // (2 * (len(NAME) + 14))
    own = [longer(record(owner, 1, number(index, 4)), owner) for index in range(count)]
    signed_by = longer(record(owner, 46, signature(1, 2, [record(NAME, 1, number(index, 4)) for index in range(count)])), owner)
    return at_anchor(message(NAME, 1, own + own + [signed_by], [record(owner, 1, number(index, 4)) for index in range(count)]))


def option_last(share):
    """An address, and an OPT record behind as many additional records as have room."""
    answer = signed(NAME, 1, [ADDRESS], ZONE, KEY)
    others = fitting(room(share, NAME, OPT, *answer), each(lambda index: [record(label(index) + UP, 1, ADDRESS)]))
    return at_anchor(message(NAME, 1, answer, others + [OPT]))


def questions(are_there, share):
    """As many questions as have room, of which all are there, or of which the header claims more."""
    count = (int(share * MOST) - 12) // 5
    return at_anchor(number(0, 2) + number(0x8400, 2) + number(count if are_there else 65535, 2) + bytes(6) + bytes.fromhex("0000010001") * count)


def pointers(share):
    """A set of addresses at a name of 124 labels, which each owner reaches by 255 pointers."""
    name = deep(123)
    start = 16 + len(name) + 12
    chain = b"\xc0\x0c" + b"".join(number(0xC000 + start + 2 * index, 2) for index in range(253))
    first = record(b"\xc0\x0c", 65280, chain)
    owner = number(0xC000 + start + len(chain) - 2, 2)
    count = (room(share, name, first) - 142) // 16
    own = [record(name, 1, number(index, 4)) for index in range(count)]
    both = [record(owner, 1, number(index, 4)) for index in range(count)] + [record(owner, 46, signature(1, label_count(name), own))]
    chained = record(b"\xc0\x0c", 46, signature(65280, label_count(name), [record(name, 65280, chain)]))
    return at_anchor(message(name, 1, [first, chained] + both))


def many_anchors(octets, share):
    """Anchors at 100,000 places besides the one at the zone."""
    return Judged(octets, [("example.", "DNSKEY", keys())], [ANCHOR] + ["%x.a. NS ." % index for index in range(int(share * 100000))])


JUDGED = (
    Kind("groups with a bad and a good signature, keys of that tag", "0 Bogus 6", groups_of_one_tag),
    Kind("groups with a bad and a good signature, keys of another tag", "0 Secure", groups_among_keys),
    Kind("a set with signatures of one tag, keys of that tag", "0 Bogus 6", signatures_of_one_tag),
    Kind("a set with signatures of one tag, keys of that tag and another algorithm", "0 Bogus 6", signatures_of_another_algorithm),
    Kind("a set with signatures of one tag by another zone, keys of that tag", "0 Bogus 6", signatures_of_another_zone),
    Kind("a set with signatures of one tag by another zone of 121 labels, keys of that tag", "0 Bogus 6", signatures_of_another_long_zone),
    Kind("DS records of one tag, keys of that tag", "0 Bogus 6", ds_of_one_tag),
    Kind("a name of 124 labels denied by NSEC3, 100 iterations", "0 Bogus", lambda share: denied_by_hashes(100, share)),
    Kind("a name of 124 labels denied by NSEC3, 500 iterations", "0 Insecure", lambda share: denied_by_hashes(500, share)),
    Kind("an answer from a wildcard by NSEC3, 100 iterations", "0 Bogus", wildcard_by_hashes),
    Kind("a walk of 120 names by NSEC3, 100 iterations", "0 Bogus", walk_by_hashes),
    # The replies are the same for the half: names are as deep. For each name a walk is given the node of each name above, in a list that can take
    # twice what it holds.
    Kind("names in an insecure zone, 120 names below the anchor", "0 Insecure", deep_insecure, lambda share: n_log_n(share * MOST),
         lambda share: 120 * 16 * int.from_bytes(deep_insecure(share).message[6:8], "big")),
    Kind("a walk of 119 names under many keys", "0 Bogus 6", walk_under_keys),
    Kind("a name that NSEC records don't deny", "0 Bogus", denied_by_nsecs),
    Kind("a name that NSEC records of 123 labels don't deny", "0 Bogus", denied_by_long_nsecs),
    Kind("a chain of CNAMEs", "0 Bogus 6", cname_chain),
    Kind("loops of CNAMEs", "0 Bogus 6", cname_loops),
    Kind("a DNAME onto itself", "0 Bogus 6", dname_onto_itself),
    Kind("bare CNAMEs beside as many DNAMEs", "0 Bogus 6", lambda share: bare_cnames(None, False, share)),
    Kind("11 bare CNAMEs behind signed DNAMEs", "0 Bogus 6", lambda share: bare_cnames(11, True, share)),
    Kind("11 bare CNAMEs behind bare DNAMEs", "0 Bogus 6", lambda share: bare_cnames(11, False, share)),
    Kind("11 CNAMEs from wildcards by NSEC3, 100 iterations", "0 Secure", expanded_by_hashes),
    Kind("an address, 60 zones with many keys below the anchor", "0 Secure", many_zones),
    Kind("11 CNAMEs from wildcards, 20 zones with many keys below the anchor", "0 Secure", long_proofs),
    Kind("a message of many sets, rewritten", "0 Secure", rewritten_groups),
    Kind("a message of one set, rewritten", "0 Secure", rewritten_set),
    Kind("an OPT record behind others", "0 Secure", option_last),
    Kind("questions, more claimed", "0 error:ParseError", lambda share: questions(False, share)),
    Kind("questions, all there", "0 error:FormError", lambda share: questions(True, share)),
    Kind("owners of 255 pointers and 124 labels", "0 Secure", pointers),
    Kind("100,000 anchors, a small message", "0 Secure", lambda share: many_anchors(address(b"www", ZONE, KEY), share)),
    # Each set is compared with each anchor, and the half has half of both. Anchors are the caller's own.
    Kind("100,000 anchors, a message of many sets", "0 Secure", lambda share: many_anchors(rewritten_groups(share).message, share),
         lambda share: share ** 2),
)

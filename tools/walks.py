"""The way from an anchor down to a zone by a script's replies, with a box for each set on it and what failed there.

The tests are this tool's own: they say where to look. What a message is judged to be is the program's to say."""

from data import (CNAME, DNAME, DNSKEY, DS, NS, NSEC, NSEC3, SOA, base32hex, data_text, ds_from, hash_of, key_from, key_text, nsec3_from,
                  nsec_from, speaks_of)
from runs import reply_for
from signatures import is_expansion, look_at, sets_in
from story import ANCHOR, FAILED, GOOD, KEYS, MOST_LINES, SETS, UNSIGNED, data_lines, found_lines, set_title, signed_lines
from wire import Unreadable, is_below, lowered
from words import SUPPORTED_ALGORITHMS, SUPPORTED_DIGESTS, name_text

# The defaults of the program's settings: past the first a zone counts as unsigned, past the second as bogus (RFC 9276 3.2).
MOST_ITERATIONS, BOGUS_ITERATIONS = 100, 500


class Reached:
    """How far a walk from an anchor has come: the zone with its keys, the box and the state that it is in, the name where it stopped, and
    whether its last name redirects what is below it."""

    def __init__(self, name, keys, box, state, stopped=None, redirects=False):
        self.name, self.keys, self.box, self.state, self.stopped, self.redirects = name, keys, box, state, stopped, redirects


def set_in(section, owner, rtype):
    for one in sets_in(section):
        if (lowered(one.owner), one.rtype, one.rclass) == (lowered(owner), rtype, 1) and one.records:
            return one
    return None


def asked_for(story, script, zone, row, owner, rtype):
    """The reply to a question, or the box of one that fails or can't be read."""
    title = set_title(owner, rtype, 1)
    if (lowered(owner), rtype) not in script.replies:
        return None, story.box(zone, row, title, ["the script has no reply to this question"], FAILED)
    try:
        reply = reply_for(script, owner, rtype)
    except Unreadable as why:
        return None, story.box(zone, row, title, ["the reply can't be read: %s" % why], FAILED)
    return reply, None if reply else story.box(zone, row, title, ["the question fails"], FAILED)


def walk(story, script, island, target, tests):
    """From the island's anchor down to a zone, by the replies of the script."""
    reached = anchored(story, script, island, tests)
    for length in range(len(island) + 1, len(target) + 1):
        if reached.state != GOOD:
            break
        name = target[len(target) - length:]
        reached = below_dname(story, reached, name) if reached.redirects else stepped(story, script, reached, name, tests)
    return reached


def below_dname(story, reached, name):
    """A name below one with DNAME, which redirects it: nothing stands there, and nothing is asked (RFC 5155 8.3, RFC 6672 2.4)."""
    place = story.box(story.zone(reached.name), SETS, set_title(name, DS, 1), ["not asked for: nothing stands below a DNAME"], FAILED)
    story.arrow(reached.box, place, FAILED)
    return Reached(reached.name, reached.keys, place, FAILED, name)


def anchored(story, script, island, tests):
    zone = story.zone(island)
    anchors = [anchor for anchor in script.anchors if lowered(anchor.owner) == lowered(island)]
    top = story.box(zone, ANCHOR, "trust anchor", [data_text(anchor.rtype, anchor.data) for anchor in anchors])
    reply, failed = asked_for(story, script, zone, KEYS, island, DNSKEY)
    one = set_in(reply.answer, island, DNSKEY) if reply else None
    if one is None:
        place = failed if failed is not None else story.box(zone, KEYS, set_title(island, DNSKEY, 1), ["no such set in the reply"], FAILED)
        story.arrow(top, place, FAILED)
        return Reached(island, [], place, FAILED)
    keys = [key_from(data) for data in one.records]
    admitted = [key for key in keys if any(key.data == anchor.data if anchor.rtype == DNSKEY else speaks_of(
        ds_from(anchor.data), island, key) for anchor in anchors)]
    return key_set(story, zone, island, one, keys, admitted, "no key is one that an anchor speaks of", top, tests)


def key_set(story, zone, name, one, keys, admitted, none, above, tests):
    """The box of a key set, one key of which has to be admitted and to have signed it."""
    found = look_at(one, name, admitted, tests) if admitted else None
    fault = found.fault if found else none
    lines = [key_text(key) for key in keys[:MOST_LINES]] + found_lines(fault, found and found.signature, one, tests.moment)
    place = story.box(zone, KEYS, "keys of %s" % name_text(name), lines, FAILED if fault else GOOD)
    story.arrow(above, place, FAILED if fault else GOOD)
    return Reached(name, keys, place, FAILED if fault else GOOD)


def stepped(story, script, reached, name, tests):
    """A name further: by its DS set to a zone, or by what denies one."""
    zone = story.zone(reached.name)
    reply, failed = asked_for(story, script, zone, SETS, name, DS)
    if failed is not None:
        story.arrow(reached.box, failed, FAILED)
        return Reached(reached.name, reached.keys, failed, FAILED, name)
    one = set_in(reply.answer, name, DS)
    found = look_at(one, reached.name, reached.keys, tests) if one else None
    if one is None or not found.fault and is_expansion(one, found.signature):
        return without_ds(story, zone, reached, name, reply, tests)
    lines = data_lines(DS, one.records) + found_lines(found.fault, found.signature, one, tests.moment)
    supported = [ds for ds in map(ds_from, one.records)
                 if ds.algorithm in SUPPORTED_ALGORITHMS and ds.digest_type in SUPPORTED_DIGESTS]
    lines += [] if supported or found.fault else ["no algorithm and digest that is supported: unsigned"]
    state = FAILED if found.fault else GOOD if supported else UNSIGNED
    place = story.box(zone, SETS, set_title(name, DS, 1), lines, state)
    story.arrow(reached.box, place, state)
    if state != GOOD:
        return Reached(reached.name, reached.keys, place, state, name)
    return child(story, script, reached.name, name, supported, place, tests)


def child(story, script, above, name, supported, place, tests):
    zone = story.zone(name, above)
    reply, failed = asked_for(story, script, zone, KEYS, name, DNSKEY)
    one = set_in(reply.answer, name, DNSKEY) if reply else None
    if one is None:
        box = failed if failed is not None else story.box(zone, KEYS, set_title(name, DNSKEY, 1), ["no such set in the reply"], FAILED)
        story.arrow(place, box, FAILED)
        return Reached(name, [], box, FAILED)
    keys = [key_from(data) for data in one.records]
    admitted = [key for key in keys if any(speaks_of(ds, name, key) for ds in supported)]
    return key_set(story, zone, name, one, keys, admitted, "no key is one that a DS record speaks of", place, tests)


def wrong_for_ds(one, signature, types):
    """Why a signed record with these types can't show that a name has no DS set (RFC 4035 5.2), None where it can."""
    if is_expansion(one, signature):
        return "it is an expansion of a wildcard"
    if DS in types:
        return "it says that there is a DS record"
    return "it is the zone's own, from below the cut" if SOA in types else None


def without_ds(story, zone, reached, name, reply, tests):
    """What a reply without a DS set shows of a name: by CNAME and NSEC records, else by NSEC3 records."""
    for one in sets_in(reply.answer) + sets_in(reply.authority):
        own = lowered(one.owner) == lowered(name)
        gap = one.rtype == NSEC and one.records and is_below(nsec_from(one.records[0]).next, name)
        if one.records and (own and one.rtype in (NSEC, CNAME) or gap):
            found = look_at(one, reached.name, reached.keys, tests)
            types = nsec_from(one.records[0]).types if one.rtype == NSEC and own else []
            wrong = found.fault or wrong_for_ds(one, found.signature, types)
            unsigned = "a delegation without DS: unsigned" if NS in types else None
            return shown(story, zone, reached, one, wrong, found, unsigned, DNAME in types, name, tests)
    for one in sets_in(reply.authority):
        if one.rtype == NSEC3 and len(one.records) == 1 and lowered(one.owner[1:]) == lowered(reached.name):
            said = said_by_hash(nsec3_from(one.records[0]), one.owner[0].lower().decode("ascii", "replace"), name)
            if said:
                found = look_at(one, reached.name, reached.keys, tests)
                return shown(story, zone, reached, one, found.fault or said[0], found, said[1], said[2], name, tests)
    place = story.box(zone, SETS, set_title(name, DS, 1), ["no DS record, and nothing that shows that there is none"], FAILED)
    story.arrow(reached.box, place, FAILED)
    return Reached(reached.name, reached.keys, place, FAILED, name)


def said_by_hash(nsec3, label, name):
    """What an NSEC3 record says of a name's DS set: what is wrong, why the name is unsigned (RFC 5155 8.6, 8.9), and whether it redirects
    what is below it. None: nothing."""
    if nsec3.algorithm != 1 or nsec3.flags > 1:
        return None
    if nsec3.iterations > MOST_ITERATIONS:
        return ("more than %d iterations" % BOGUS_ITERATIONS if nsec3.iterations > BOGUS_ITERATIONS else None,
                "too many iterations: unsigned", False)
    digest, following = base32hex(hash_of(name, nsec3)), base32hex(nsec3.next)
    if digest == label:
        wrong = ("it says that there is a DS record" if DS in nsec3.types else "it is the zone's own, from below the cut"
                 if SOA in nsec3.types else None)
        return wrong, "a delegation without DS: unsigned" if NS in nsec3.types else None, DNAME in nsec3.types
    if label < digest < following or following <= label and (label < digest or digest < following):
        return None if nsec3.flags & 1 else "it says that the name isn't there", "it may be a delegation by Opt-Out: unsigned", False
    return None


def shown(story, zone, reached, one, wrong, found, unsigned, redirects, name, tests):
    """What comes of a record that speaks of a missing DS set: a failure, an unsigned name, or a name of the zone itself."""
    if not wrong and not unsigned:
        return Reached(reached.name, reached.keys, reached.box, reached.state, redirects=redirects)
    lines = data_lines(one.rtype, one.records) + ([wrong] if wrong else signed_lines(found.signature, one, tests.moment) + [unsigned])
    state = FAILED if wrong else UNSIGNED
    place = story.box(zone, SETS, set_title(one.owner, one.rtype, one.rclass), lines, state)
    story.arrow(reached.box, place, state)
    return Reached(reached.name, reached.keys, place, state, name)

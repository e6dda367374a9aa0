"""Messages and replies with as many signatures, keys and DS records as have room."""

from making import BELOW, TAG, ZONE, address, label_count, message, number, record, replies_below, signature, tag_of, text_of
from worst import ADDRESS, ANCHOR, NAME, OTHER_TAG, UP, Judged, at_anchor, deep, each, fitting, keys_of_one_tag, label, room


def signed_twice(share):
    """Names with an address, a bad signature by the key's tag, and the good one."""
    def owned(index):
        own, owner = [record(label(index) + ZONE, 1, ADDRESS)], label(index) + UP
        return [record(owner, 1, ADDRESS)] + [record(owner, 46, signature(1, 2, own, good=good)) for good in (False, True)]
    return message(NAME, 1, fitting(room(share, NAME), each(owned)))


def many_signatures(share, tag, signer=ZONE, zone=ZONE):
    """One address with as many signatures of a tag as have room, behind one that names the zone."""
    name, own = label(0) + zone, record(b"\xc0\x0c", 1, ADDRESS)
    first = record(b"\xc0\x0c", 46, signature(1, label_count(name), [own], tag=1, good=False, zone=zone))
    data = signature(1, label_count(name), [own], tag=tag, good=False, zone=signer)[:-32]
    return message(name, 1, [own, first] + fitting(room(share, name, own, first),
                                                   ([record(b"\xc0\x0c", 46, data + number(index, 2))] for index in range(65536))))


def groups_of_one_tag(share):
    return at_anchor(signed_twice(share), keys_of_one_tag(share, TAG))


def groups_among_keys(share):
    return at_anchor(signed_twice(share), keys_of_one_tag(share, OTHER_TAG))


def signatures_of_one_tag(share):
    return at_anchor(many_signatures(share, TAG), keys_of_one_tag(share, TAG))


def signatures_of_another_algorithm(share):
    return at_anchor(many_signatures(share, OTHER_TAG), keys_of_one_tag(share, OTHER_TAG, 8))


def signatures_of_another_zone(share):
    """The signers differ from the zone by their last letter, and the keys have the signatures' tag and algorithm."""
    return at_anchor(many_signatures(share, OTHER_TAG, b"\7examplf\0"), keys_of_one_tag(share, OTHER_TAG))


def signatures_of_another_long_zone(share):
    """The same, where zone and signers have 121 labels, of which the last differs."""
    zone = deep(120)
    signer = zone.replace(b"example", b"examplf")
    return Judged(many_signatures(share, OTHER_TAG, signer, zone), [(text_of(zone), "DNSKEY", keys_of_one_tag(share, OTHER_TAG, 13, zone))],
                  [text_of(zone) + " 3600 IN DNSKEY 257 3 13 AQI="])


def ds_of_one_tag(share):
    """A zone below whose DS records all speak of one tag, and none of a key of it."""
    zone, key = BELOW[0]
    datas = fitting(room(share, zone, bytes(12 + 18 + len(ZONE) + 32)),
                    ([record(b"\xc0\x0c", 43, number(tag_of(key), 2) + bytes([13, 2]) + number(index, 32))] for index in range(65536)))
    own = [record(zone, 43, data[12:]) for data in datas]
    ds = message(zone, 43, datas + [record(b"\xc0\x0c", 46, signature(43, label_count(zone), own))])
    return Judged(address(b"www", zone, key), replies_below(0) + [
        (text_of(zone), "DS", ds), (text_of(zone), "DNSKEY", keys_of_one_tag(share, tag_of(key), 13, zone, key))], [ANCHOR])

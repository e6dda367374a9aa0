"""What the data of records say, as views and as text (RFC 1035 3.3, RFC 4034, RFC 5155)."""

import base64
import collections
import hashlib
import ipaddress

from wire import Unreadable, name_from, name_octets, lowered
from words import DIGESTS, algorithm_text, name_text, type_text

A, NS, CNAME, SOA, PTR, MX, TXT, AAAA, DNAME = 1, 2, 5, 6, 12, 15, 16, 28, 39
DS, RRSIG, NSEC, DNSKEY, NSEC3, NSEC3PARAM = 43, 46, 47, 48, 50, 51

Key = collections.namedtuple("Key", "flags protocol algorithm key data tag")
Ds = collections.namedtuple("Ds", "tag algorithm digest_type digest")
Rrsig = collections.namedtuple("Rrsig", "covered algorithm labels ttl expiration inception tag signer signature head")
Nsec = collections.namedtuple("Nsec", "next types")
Nsec3 = collections.namedtuple("Nsec3", "algorithm flags iterations salt next types")
BASE32HEX = bytes.maketrans(b"ABCDEFGHIJKLMNOPQRSTUVWXYZ234567", b"0123456789abcdefghijklmnopqrstuv")


def number_at(data, first, last):
    if last > len(data):
        raise Unreadable("data that end before their layout does")
    return int.from_bytes(data[first:last], "big")


def key_from(data):
    return Key(number_at(data, 0, 2), number_at(data, 2, 3), number_at(data, 3, 4), data[4:], data, key_tag(data))


def key_tag(data):
    """RFC 4034 appendix B."""
    if data[3] == 1:
        return int.from_bytes(data[-3:-1], "big") if len(data) >= 7 else 0
    total = sum(octet << 8 if place % 2 == 0 else octet for place, octet in enumerate(data))
    return (total + (total >> 16 & 0xFFFF)) & 0xFFFF


def ds_from(data):
    return Ds(number_at(data, 0, 2), number_at(data, 2, 3), number_at(data, 3, 4), data[4:])


def digest_of(digest_type, owner, key):
    """The digest that a DS record has of a key (RFC 4034 5.1.4), None of a digest type that isn't known."""
    by = {1: hashlib.sha1, 2: hashlib.sha256, 4: hashlib.sha384}.get(digest_type)
    return by(name_octets(lowered(owner)) + key.data).digest() if by else None


def speaks_of(ds, owner, key):
    return (ds.tag, ds.algorithm) == (key.tag, key.algorithm) and ds.digest == digest_of(ds.digest_type, owner, key)


def rrsig_from(data):
    signer, behind = name_from(data, 18)
    fields = [number_at(data, *places) for places in ((0, 2), (2, 3), (3, 4), (4, 8), (8, 12), (12, 16), (16, 18))]
    return Rrsig(*fields, signer, data[behind:], data[:18])


def types_in(bitmap):
    """The types of a bitmap (RFC 4034 4.1.2)."""
    types, at = [], 0
    while at + 2 <= len(bitmap):
        window, length = bitmap[at], bitmap[at + 1]
        for place, octet in enumerate(bitmap[at + 2:at + 2 + length]):
            types += [window * 256 + place * 8 + bit for bit in range(8) if octet & 0x80 >> bit]
        at += 2 + length
    return types


def nsec_from(data):
    name, behind = name_from(data, 0)
    return Nsec(name, types_in(data[behind:]))


def nsec3_from(data):
    salt = 5 + number_at(data, 4, 5)
    behind = salt + 1 + number_at(data, salt, salt + 1)
    return Nsec3(data[0], data[1], number_at(data, 2, 4), data[5:salt], data[salt + 1:behind], types_in(data[behind:]))


def base32hex(octets):
    """RFC 4648 7, in lower case and without padding (RFC 5155 3.3)."""
    return base64.b32encode(octets).translate(BASE32HEX).decode().rstrip("=")


def hash_of(name, nsec3):
    """The hash of a name by the numbers of an NSEC3 record (RFC 5155 5)."""
    digest = hashlib.sha1(name_octets(lowered(name)) + nsec3.salt).digest()
    for _ in range(nsec3.iterations):
        digest = hashlib.sha1(digest + nsec3.salt).digest()
    return digest


def key_text(key):
    kinds = ["zone key" if key.flags & 0x0100 else "no zone key"]
    kinds += ["entry point"] if key.flags & 0x0001 else []
    kinds += ["revoked"] if key.flags & 0x0080 else []
    return "DNSKEY %d, algorithm %s, flags %d (%s)" % (key.tag, algorithm_text(key.algorithm), key.flags, ", ".join(kinds))


def ds_text(ds):
    return "DS of key %d, algorithm %s, digest %d %s %s" % (
        ds.tag, algorithm_text(ds.algorithm), ds.digest_type, DIGESTS.get(ds.digest_type, "unknown"), short(ds.digest.hex()))


def short(text, most=24):
    return text if len(text) <= most else text[:most - 2] + ".."


def data_text(rtype, data):
    """The data as people read them; in hex, and shortened, where their type has no text here."""
    try:
        return TEXTS.get(rtype, generic_text)(data)
    except (Unreadable, ValueError, IndexError):
        return generic_text(data)


def generic_text(data):
    return "\\# %d %s" % (len(data), short(data.hex(), 40))


def soa_text(data):
    primary, at = name_from(data, 0)
    mailbox, at = name_from(data, at)
    return "%s %s %s" % (name_text(primary), name_text(mailbox),
                         " ".join(str(number_at(data, place, place + 4)) for place in range(at, at + 20, 4)))


def txt_text(data):
    strings, at = [], 0
    while at < len(data):
        strings.append(data[at + 1:at + 1 + data[at]].decode("ascii", "replace"))
        at += 1 + data[at]
    return short(" ".join('"%s"' % string for string in strings), 60)


def nsec_text(data):
    nsec = nsec_from(data)
    return "next %s, types %s" % (name_text(nsec.next), " ".join(type_text(rtype) for rtype in nsec.types))


def nsec3_text(data):
    nsec3 = nsec3_from(data)
    return "iterations %d, salt %s%s, next %s, types %s" % (
        nsec3.iterations, nsec3.salt.hex() or "-", ", Opt-Out" if nsec3.flags & 1 else "", base32hex(nsec3.next),
        " ".join(type_text(rtype) for rtype in nsec3.types))


def one_name(data):
    return name_text(name_from(data, 0)[0])


TEXTS = {A: lambda data: str(ipaddress.IPv4Address(data)), AAAA: lambda data: str(ipaddress.IPv6Address(data)),
         NS: one_name, CNAME: one_name, PTR: one_name, DNAME: one_name, SOA: soa_text, TXT: txt_text,
         MX: lambda data: "%d %s" % (number_at(data, 0, 2), name_text(name_from(data, 2)[0])),
         DS: lambda data: ds_text(ds_from(data)), DNSKEY: lambda data: key_text(key_from(data)), NSEC: nsec_text, NSEC3: nsec3_text}

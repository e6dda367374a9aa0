"""What a picture of one message shows: zones from the anchor down, in each boxes for its sets of records, and arrows between these."""

import collections

from data import data_text
from signatures import is_expansion, period_text
from words import algorithm_text, class_text, name_text, type_text

# The states of boxes and arrows: good by every test; failed; shown to be unsigned; not looked at, for a failure stands above.
GOOD, FAILED, UNSIGNED, OPEN = "good", "failed", "unsigned", "open"

Box = collections.namedtuple("Box", "zone row title lines state")
Arrow = collections.namedtuple("Arrow", "start end state")
ANCHOR, KEYS, SETS, OUTCOME = range(4)
MOST_LINES = 6


class Story:
    """Boxes stand in a zone, and there in a row: its anchors, its keys, the sets that these sign. The outcome's box is in no zone."""

    def __init__(self, title):
        self.title, self.zones, self.boxes, self.arrows, self.places = title, {}, [], [], {}

    def zone(self, name, above=None):
        """The zone's word, and the zone above it, as it was first named."""
        word = name_text(name).lower()
        if word not in self.zones:
            self.zones[word] = None if above is None else name_text(above).lower()
        return word

    def box(self, zone, row, title, lines, state=GOOD):
        """The index of a box; the same box twice is one."""
        key = (zone, row, title, tuple(lines))
        if key not in self.places:
            self.places[key] = len(self.boxes)
            self.boxes.append(Box(zone, row, title, lines, state))
        return self.places[key]

    def arrow(self, start, end, state=GOOD):
        if start is not None and end is not None and Arrow(start, end, state) not in self.arrows:
            self.arrows.append(Arrow(start, end, state))

    def depth(self, zone):
        above = self.zones[zone]
        return 0 if above is None else 1 + self.depth(above)


def set_title(owner, rtype, rclass):
    return "%s %s%s" % (name_text(owner), "" if rclass == 1 else class_text(rclass) + " ", type_text(rtype))


def data_lines(rtype, records):
    lines = [data_text(rtype, data) for data in records[:MOST_LINES]]
    return lines + (["and %d more" % (len(records) - MOST_LINES)] if len(records) > MOST_LINES else [])


def signed_lines(signature, one, moment):
    lines = ["signed by key %d, algorithm %s," % (signature.tag, algorithm_text(signature.algorithm)),
             period_text(signature, signature.inception if moment is None else moment)]
    if is_expansion(one, signature):
        lines.append("an expansion of *.%s" % name_text(one.owner[len(one.owner) - signature.labels:]).lstrip("."))
    return lines


def held_lines(one, moment):
    """The signatures that a set has, where none of them counts."""
    return ["has a signature by key %d of %s, %s" % (signature.tag, name_text(signature.signer), period_text(signature, moment))
            for signature in one.signatures[:MOST_LINES]]


def found_lines(fault, signature, one, moment):
    """What came of a set under keys: what is wrong, and the signatures that it has, or the good one."""
    return [fault] + held_lines(one, moment) if fault else signed_lines(signature, one, moment)

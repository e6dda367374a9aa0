"""The story of a message: from the links that a verdict Secure has, or else from the script's anchors, replies and message."""

from data import CNAME, DNAME, DNSKEY, DS, RRSIG, data_text, rrsig_from
from runs import Refused
from signatures import Tests, look_at, sets_in, signer_of
from story import ANCHOR, FAILED, GOOD, KEYS, OPEN, OUTCOME, SETS, UNSIGNED, Story, data_lines, found_lines, held_lines, set_title, signed_lines
from walks import walk
from wire import Unreadable, is_below, lowered, message_from, name_from
from words import name_from_text, name_text

STATES = {"Secure": GOOD, "Insecure": UNSIGNED, "Bogus": FAILED, "Indeterminate": OPEN, "error": FAILED}


def titled(outcome):
    """The first words of an outcome's line."""
    return "message %d: %s" % (outcome.index, "error:" + outcome.text if outcome.state == "error" else outcome.state)


def outcome_box(story, outcome, asked, sets):
    """The box at the end, with arrows from the sets that decide."""
    lines = [asked] if asked else []
    lines += [outcome.text] if outcome.text else []
    end = story.box(None, OUTCOME, outcome.state, lines, STATES[outcome.state])
    for one in sets:
        story.arrow(one, end, story.boxes[one].state)


def story_of(outcome, script, verified=True):
    """The story of an outcome, as much as there is to it; the script may be None. Where signatures aren't verified, each passes that fits."""
    if script and outcome.index >= len(script.messages):
        raise Refused("the script has no message %d: is it that of this output?" % outcome.index)
    moment, octets = script.messages[outcome.index] if script else (None, None)
    if outcome.state == "Secure":
        return story_of_links(outcome, asked_text(message_from(octets)) if octets else None, moment)
    if script:
        return story_of_script(outcome, script, Tests(moment, verified), octets)
    story = Story(titled(outcome))
    outcome_box(story, outcome, None, [])
    return story


def story_of_links(outcome, asked, moment):
    """The story of a verdict Secure: each link is a box, and its arrow comes from what shows it."""
    story = Story(titled(outcome))
    keys, sets, zone, ds = {}, [], None, {}
    for link in outcome.links:
        lines = data_lines(link.rtype, link.records) + signed_lines(rrsig_from(link.rrsig), link, moment)
        if link.kind in ("anchor-key", "anchor-ds"):
            zone = story.zone(link.owner)
            rtype = DNSKEY if link.kind == "anchor-key" else DS
            top = story.box(zone, ANCHOR, "trust anchor", [data_text(rtype, link.via)])
            keys[zone] = story.box(zone, KEYS, "keys of %s" % name_text(link.owner), lines)
            story.arrow(top, keys[zone])
        elif link.kind == "ds":
            child = name_text(link.owner).lower()
            ds[child] = story.box(zone, SETS, set_title(link.owner, DS, 1), lines)
            story.arrow(keys[zone], ds[child])
        elif link.kind == "key":
            below = story.zone(link.owner, name_from_text(zone))
            keys[below] = story.box(below, KEYS, "keys of %s" % name_text(link.owner), lines)
            story.arrow(ds[below], keys[below])
            zone = below
        else:
            place = story.box(zone, SETS, set_title(link.owner, link.rtype, link.rclass), lines)
            story.arrow(keys[zone], place)
            sets.append(place)
    outcome_box(story, outcome, asked, sets)
    return story


def island_of(script, owner, rtype):
    """The longest anchor's owner at or above a name; for a DS set at or above the name above it."""
    name = owner[1:] if rtype == DS and owner else owner
    above = [anchor.owner for anchor in script.anchors if is_below(name, anchor.owner)]
    return max(above, key=len) if above else None


def story_of_script(outcome, script, tests, octets):
    """The story of a message that isn't Secure, by tests of its own: where these fail is where to look."""
    story = Story(titled(outcome) + ("" if tests.verified else " (signatures aren't verified in this picture)"))
    try:
        message = message_from(octets)
    except Unreadable as why:
        story.box(None, OUTCOME, outcome.state, [str(why)], STATES[outcome.state])
        return story
    places, walks = [], {}
    sets = sets_in(message.answer + message.authority)
    for one in sets:
        if follows(one, sets):
            continue
        island = island_of(script, one.owner, one.rtype)
        if island is None or not one.records:
            places.append(lonely_box(story, one))
            continue
        target = signer_of(one, island)
        word = name_text(target).lower()
        if word not in walks:
            walks[word] = walk(story, script, island, target, tests)
        places.append(group_box(story, one, walks[word], target, tests))
    outcome_box(story, outcome, asked_text(message), places)
    return story


def follows(one, sets):
    """Whether a CNAME record without a signature is what a DNAME record among the sets makes of its owner (RFC 6672 3.1)."""
    if one.rtype != CNAME or one.signatures or len(one.records) != 1:
        return False
    target = lowered(name_from(one.records[0], 0)[0])
    for other in sets:
        front = lowered(one.owner)[:len(one.owner) - len(other.owner)]
        if other.rtype == DNAME and other.rclass == one.rclass and front and is_below(one.owner, other.owner):
            if any(front + lowered(name_from(data, 0)[0]) == target for data in other.records):
                return True
    return False


def asked_text(message):
    question = message.questions[0] if message.questions else None
    error = message.flags & 15
    return question and "%s%s" % (set_title(question.name, question.rtype, question.rclass), {0: "", 3: " (NXDOMAIN)"}.get(
        error, " (error %d)" % error))


def lonely_box(story, one):
    fault = "a signature without its set" if not one.records else "no anchor at or above it"
    zone = story.zone(one.owner)
    return story.box(zone, SETS, set_title(one.owner, one.rtype if one.records else RRSIG, one.rclass),
                     data_lines(one.rtype, one.records) + [fault], UNSIGNED if not one.records else OPEN)


def group_box(story, one, reached, target, tests):
    """The box of a set of the message, under what was reached of its zone."""
    title, lines = set_title(one.owner, one.rtype, one.rclass), data_lines(one.rtype, one.records)
    if reached.state != GOOD:
        zone = target if one.signatures or reached.stopped is None else reached.stopped
        place = story.box(story.zone(zone, reached.name if lowered(zone) != lowered(reached.name) else None), SETS, title,
                          lines + held_lines(one, tests.moment), UNSIGNED if reached.state == UNSIGNED else OPEN)
        story.arrow(reached.box, place, reached.state)
        return place
    found = look_at(one, reached.name, reached.keys, tests)
    lines += found_lines(found.fault, found.signature, one, tests.moment)
    state = FAILED if found.fault else GOOD
    place = story.box(story.zone(reached.name), SETS, title, lines, state)
    story.arrow(reached.box, place, state)
    return place

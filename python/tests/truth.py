"""Truth: whether what an explanation says of a table and a move is so. The sentence is parsed, and each thing it says is tested on a tree
made here, by document 01's words."""

import re
import struct

from wigandoy import tables

NIL, STOP, MESSAGE, RECEIVE, WAIT, CHOICE, PARALLEL, PROTECTION, DELIMITATION, REPLICATION = range(10)
KINDS = "nil stop message receive wait choice parallel protection delimitation replication".split()
WANTED = {0: STOP, 1: RECEIVE, 2: WAIT, 4: REPLICATION, 5: DELIMITATION}
R = rf"the (?:{'|'.join(KINDS)})(?: of \d+)?(?: \S.*?)? at \d+"


class Node:
    """A record of a tree."""

    def __init__(self, place, record, parent):
        self.place, self.record, self.parent, self.kind, self.children = place, record, parent, record.kind, []

    def above(self):
        node = self.parent
        while node:
            yield node
            node = node.parent

    def encloses(self, other):
        return any(node is self for node in other.above())

    def live(self):
        return all(node.kind in (CHOICE, PARALLEL, PROTECTION, DELIMITATION) for node in self.above())

    def ready(self):
        return all(node.kind in (CHOICE, PARALLEL, PROTECTION, DELIMITATION, REPLICATION) for node in self.above())

    def all(self):
        return [self, *(node for child in self.children for node in child.all())]

    def height(self):
        return 1 + max((child.height() for child in self.children), default=0)


def tree(table):
    """The nodes of a well-formed table, in record order."""
    records, nodes = tables.records(table), []

    def grow(parent):
        node = Node(len(nodes), records[len(nodes)], parent)
        nodes.append(node)
        for _ in range((0, 0, 0, 1, 1, 2, 2, 1, 1, 1)[node.kind]):
            node.children.append(grow(node))
        return node

    grow(None)
    return nodes


def atom(word):
    return {"v": 0, "x": 32768, "k": 49152}[word[0]] + int(word[1:])


def variable(number):
    return 32768 <= number < 49152


def contents(node):
    return node.record.slots[:node.record.count]


def fits(receive, message):
    """Whether a message fits a receive."""
    sent, pattern = contents(message), contents(receive)
    return (not any(map(variable, (message.record.first, message.record.second, *sent)))
            and (receive.record.first, receive.record.second) == (message.record.first, message.record.second)
            and len(sent) == len(pattern) and all(variable(p) or p == v for p, v in zip(pattern, sent)))


def named(nodes, phrase):
    """The record that a phrase names; its kind, atoms and interval must be as it says."""
    kind, interval, text, place = re.fullmatch(rf"the ({'|'.join(KINDS)})(?: of (\d+))?(?: (\S.*))? at (\d+)", phrase).groups()
    node = nodes[int(place)]
    record = node.record
    assert KINDS[node.kind] == kind
    if kind == "wait":
        assert record.interval == int(interval)
    elif kind == "stop":
        assert atom(text[5:-1]) == record.first
    elif kind == "delimitation":
        assert atom(text[1:-1]) == record.first
    elif kind in ("message", "receive"):
        first, second, sign, inner = re.fullmatch(r"(\w+)\.(\w+)([!?])<(.*)>", text).groups()
        assert (atom(first), atom(second), sign) == (record.first, record.second, "!" if kind == "message" else "?")
        assert tuple(map(atom, filter(None, inner.split(", ")))) == contents(node)
    return node


def holds(table, move, reply, sentence):
    """Asserts that an explanation of a refused step is true."""
    nodes = tree(table)
    number, place, words = re.fullmatch(r"(\d+) at (\d+): (.*)", sentence).groups()
    assert (int(number), int(place)) == (reply.number, reply.place)
    if reply.number == 10:
        return
    kind, _, a, b = struct.unpack("<BBHH", move)
    said = {11: absent, 12: differs, 13: apart, 14: held, 15: looser, 16: unripe, 17: no_time, 18: stuck, 20: large}[reply.number]
    said(nodes, kind, a, b, reply.place, words)


def live_at(nodes, place, kind):
    return place < len(nodes) and nodes[place].kind == kind and nodes[place].live()


def absent(nodes, kind, a, b, place, words):
    wanted = WANTED[kind] if not live_at(nodes, a, WANTED[kind]) else MESSAGE
    assert place == (a if wanted == WANTED[kind] else b) and not live_at(nodes, place, wanted)
    if found := re.fullmatch(r"there is no record at (\d+): the table has (\d+)", words):
        assert int(found[1]) == place >= len(nodes) == int(found[2])
    elif found := re.fullmatch(rf"({R}) is no (\w+)", words):
        assert named(nodes, found[1]).place == place and nodes[place].kind != wanted and KINDS[wanted] == found[2]
    else:
        it, how, barrier = re.fullmatch(rf"({R}) is not live: it stands (inside|behind) ({R})", words).groups()
        it, barrier = named(nodes, it), named(nodes, barrier)
        assert it.place == place and it.kind == wanted and barrier.encloses(it) and barrier.live()
        assert barrier.kind == REPLICATION if how == "inside" else barrier.kind in (RECEIVE, WAIT)


def differs(nodes, kind, a, b, place, words):
    message, receive, what = re.fullmatch(rf"({R}) does not fit ({R}): (.*)", words).groups()
    message, receive = named(nodes, message), named(nodes, receive)
    assert (receive.place, message.place) == (a, b) and not fits(receive, message)
    if found := re.fullmatch(r"its variable (\w+) is not set", what):
        assert place == 0 and variable(atom(found[1])) and atom(found[1]) in (*message.record[2:4], *contents(message))
    elif what == "another endpoint":
        assert place == 1 and receive.record[2:4] != message.record[2:4]
    elif found := re.fullmatch(r"(\d) sent, and (\d) wanted", what):
        assert place == 2 and (int(found[1]), int(found[2])) == (message.record.count, receive.record.count) and found[1] != found[2]
    else:
        slot, sent, wanted = re.fullmatch(r"in slot (\w+) (\w+) is sent, and (\w+) wanted", what).groups()
        i = ("one", "two", "three", "four").index(slot)
        assert place == 3 + i and contents(message)[i] == atom(sent) != atom(wanted) == contents(receive)[i] and not variable(atom(wanted))


def apart(nodes, kind, a, b, place, words):
    receive, message = nodes[a], nodes[b]
    bound = [(x, v) for x, v in zip(contents(receive), contents(message)) if variable(x)]
    if found := re.fullmatch(rf"({R}), whose variable ({R}) binds, does not enclose ({R})", words):
        scope, one, other = (named(nodes, phrase) for phrase in found.groups())
        assert one is receive and other is message and scope.encloses(receive) and not scope.encloses(message)
        assert scope.kind == DELIMITATION and scope.record.first in dict(bound)
    else:
        value, one, scope = (named(nodes, p) for p in re.fullmatch(rf"({R}), whose value ({R}) sends, does not enclose ({R})", words).groups())
        assert one is message and (scope.record.first, value.record.first) in bound and not value.encloses(scope)
        assert value.kind == scope.kind == DELIMITATION and value.encloses(message) and scope.encloses(receive)


def held(nodes, kind, a, b, place, words):
    stop, label, scope, party = re.fullmatch(rf"({R}) is ready, and its \[(\w+)\] at (\d+) encloses ({R})", words).groups()
    stop, scope, party = named(nodes, stop), nodes[int(scope)], named(nodes, party)
    assert stop.kind == STOP and stop.ready() and scope.kind == DELIMITATION and scope.place == place
    assert scope.record.first == stop.record.first == atom(label) and scope.encloses(stop) and scope.encloses(party) and party.place in (a, b)


def looser(nodes, kind, a, b, place, words):
    it = named(nodes, re.fullmatch(rf"({R}) is ready, fits the same message and binds fewer variables", words)[1])
    assert it.place == place and it.kind == RECEIVE and it.ready() and fits(it, nodes[b])
    assert sum(map(variable, contents(it))) < sum(map(variable, contents(nodes[a])))


def unripe(nodes, kind, a, b, place, words):
    it = named(nodes, re.fullmatch(rf"({R}) cannot expire before it is down to 0", words)[1])
    assert it.place == a and it.kind == WAIT and it.record.interval > 0


def no_time(nodes, kind, a, b, place, words):
    assert a == 0 and kind == 3


def stuck(nodes, kind, a, b, place, words):
    it = named(nodes, re.match(R, words)[0])
    assert it.place == a and it.kind == DELIMITATION
    assert it.record.first >= 49152 if words.endswith("which does not float") else it.parent is None


def large(nodes, kind, a, b, place, words):
    node = nodes[a]
    if found := re.fullmatch(rf"unfolding ({R}) adds (\d+) records; that makes ([\d,]+), and 2,048 is the most", words):
        added = len(node.all())
        assert named(nodes, found[1]) is node and int(found[2]) == added and int(found[3].replace(",", "")) == len(nodes) + added > 2048
    elif found := re.fullmatch(rf"unfolding ({R}) makes a depth of (\d+), and 256 is the most", words):
        depth = len(list(node.above())) + 1 + node.height()
        assert named(nodes, found[1]) is node and int(found[2]) == depth > 256
    else:
        one, other = re.fullmatch(rf"when ({R}) floats over ({R}), that comes to stand inside it and the depth passes 256", words).groups()
        assert named(nodes, one) is node and named(nodes, other) is node.parent
        beside = max((child.height() for child in node.parent.children if child is not node), default=0)
        assert len(list(node.parent.above())) + 2 + max(beside, node.height() - 1) > 256

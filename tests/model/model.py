"""A second checker, written from the documents in docs/ alone, to compare the proved one with.

It favours plainness over speed: paths are listed, windows and sets are searched point by point where that is
cheap, and nothing is shared with the proved code.
"""

MAX_NODES, MAX_LINKS, MAX_CLASSES, MAX_USERS = 48, 64, 32, 16
MAX_PARTIAL = 65536
NAME_BYTES = set(b"abcdefghijklmnopqrstuvwxyzABCDEFGHIJKLMNOPQRSTUVWXYZ0123456789_")
VALUE_BYTES = NAME_BYTES | set(b".:*")
BLANKS = set(b" \t\r\n")
DAYS = [b"Monday", b"Tuesday", b"Wednesday", b"Thursday", b"Friday", b"Saturday", b"Sunday"]


class Refused(Exception):
    def __init__(self, number, place):
        super().__init__(f"refused {number} at {place}")
        self.number, self.place = number, place


def is_name(b):
    return 1 <= len(b) <= 16 and all(c in NAME_BYTES for c in b)


class Site:
    def __init__(self):
        self.nodes, self.links, self.classes, self.users, self.ranks = [], [], [], [], []
        self.reading = None

    def implied(self):
        return self.reading in (None, 1)

    def ports(self):
        return [(i, n) for i, link in enumerate(self.links) for n in sorted(link)]


def read_map(data):
    site, at = Site(), 0
    while at < len(data):
        causes = []
        if len(data) - at < 3 or len(data) - at < 3 + data[at + 1] * 256 + data[at + 2]:
            raise Refused(1, at)
        tag, size = data[at], data[at + 1] * 256 + data[at + 2]
        body = data[at + 3 : at + 3 + size]
        if tag not in (1, 2, 3, 4, 5):
            causes.append(2)
        if tag in (1, 3, 4):
            name = body[1:] if tag == 4 else body
            table, most = {1: (site.nodes, MAX_NODES), 3: (site.classes, MAX_CLASSES), 4: (site.users, MAX_USERS)}[tag]
            if not is_name(name):
                causes.append(3)
            if name in table:
                causes.append(4)
            if len(table) >= most:
                causes.append(5)
            if tag == 4 and (not body or body[0] == 0):
                causes.append(8)
        if tag == 2:
            if len(site.links) >= MAX_LINKS:
                causes.append(5)
            if (
                size != 2
                or max(body) >= len(site.nodes)
                or body[0] == body[1]
                or {body[0], body[1]} in [set(l) for l in site.links]
            ):
                causes.append(6)
        if tag == 5 and (site.reading is not None or size != 1 or body[0] not in (1, 2)):
            causes.append(8)
        if causes:
            raise Refused(min(causes), at)
        if tag == 2:
            site.links.append((body[0], body[1]))
        elif tag == 5:
            site.reading = body[0]
        else:
            table.append(name)
            if tag == 4:
                site.ranks.append(body[0])
        at += 3 + size
    linked = {n for link in site.links for n in link}
    if not (site.nodes and site.classes and site.users) or len(linked) < len(site.nodes):
        raise Refused(7, len(data))
    return site


# Words

SIGNS = [b"==", b"!=", b">=", b"<=", b":=", b"=", b"{", b"}", b"<", b">", b"*", b",", b";"]


class Text:
    def __init__(self, data, at):
        self.data, self.at = data, min(at, len(data))

    def skip(self):
        while self.at < len(self.data) and self.data[self.at] in BLANKS:
            self.at += 1

    def word(self, value_due=False):
        """The next word as (kind, bytes, place); kind is 'name', 'value' or 'sign'."""
        self.skip()
        start = self.at
        if start == len(self.data):
            raise Refused(9, len(self.data))
        run = VALUE_BYTES if value_due else NAME_BYTES
        if self.data[start] in run:
            while self.at < len(self.data) and self.data[self.at] in run:
                self.at += 1
            return ("value" if value_due else "name", self.data[start : self.at], start)
        for sign in SIGNS:
            if self.data.startswith(sign, start):
                self.at = start + len(sign)
                return ("sign", sign, start)
        raise Refused(10, start)

    def sign(self, *wanted):
        kind, what, at = self.word()
        if kind != "sign" or what not in wanted:
            raise Refused(10, at)
        return what, at

    def name(self):
        kind, what, at = self.word()
        if kind != "name":
            raise Refused(10, at)
        return what, at


def more(data, at):
    return any(c not in BLANKS for c in data[min(at, len(data)) :])


# Kinds


def seconds(value):
    """The second of the day that a clock value writes, or None."""
    clock, colon, tail = value.partition(b":")
    if not (1 <= len(clock) <= 4 and clock.isdigit()):
        return None
    if colon and not (len(tail) == 2 and tail.isdigit() and int(tail) < 60):
        return None
    minute, hour = int(clock[-2:]), int(clock[:-2] or b"0")
    if minute >= 60 or hour >= 24:
        return None
    return hour * 3600 + minute * 60 + (int(tail) if colon else 0)


def address(value):
    """Four parts, None for a star, or None where the value is no address pattern."""
    parts = value.split(b".")
    if len(parts) != 4:
        return None
    out = []
    for part in parts:
        if part == b"*":
            out.append(None)
        elif 1 <= len(part) <= 3 and part.isdigit() and int(part) <= 255 and None not in out:
            out.append(int(part))
        else:
            return None
    return out


class Condition:
    """Clock bounds, a set of days, address patterns to match and to avoid."""

    def __init__(self):
        self.low = self.high = None
        self.days = set(range(7))
        self.same, self.other = [], []

    def take(self, word, sign, value, word_at, value_at):
        if word == b"time":
            s = seconds(value)
            if s is None or sign not in (b">=", b"<="):
                raise Refused(14, value_at)
            if (self.low if sign == b">=" else self.high) is not None:
                raise Refused(15, value_at)
            if sign == b">=":
                self.low = s
            else:
                self.high = s
        elif word == b"day":
            if value not in DAYS:
                raise Refused(14, value_at)
            d = DAYS.index(value)
            keep = {b"==": {d}, b"!=": set(range(7)) - {d}, b">=": set(range(d, 7)), b"<=": set(range(d + 1))}
            self.days &= keep[sign]
        elif word == b"hostIP":
            a = address(value)
            if a is None or sign not in (b"==", b"!=") or len(self.same) + len(self.other) >= 8:
                raise Refused(14, value_at)
            (self.same if sign == b"==" else self.other).append(a)
        else:
            raise Refused(13, word_at)

    def at_second(self, s):
        low = 0 if self.low is None else self.low
        high = 86399 if self.high is None else self.high
        return low <= s <= high if low <= high else s >= low or s <= high

    def at_address(self, a):
        fits = lambda p: all(x is None or x == y for x, y in zip(p, a))
        return all(fits(p) for p in self.same) and not any(fits(p) for p in self.other)

    def holds(self, point):
        s, d, a = point
        return self.at_second(s) and d in self.days and self.at_address(a)


def common(x, y):
    """The common point of two conditions, or None."""
    starts = [0] + [b for b in (x.low, y.low) if b is not None]
    shared = [s for s in starts if x.at_second(s) and y.at_second(s)]
    days = x.days & y.days
    point = []
    for i in range(4):
        fixed = [p[i] for c in (x, y) for p in c.same if p[i] is not None]
        taken = {p[i] for c in (x, y) for p in c.other}
        point.append(fixed[0] if fixed else min(v for v in range(256) if v not in taken))
    if not shared or not days or not (x.at_address(point) and y.at_address(point)):
        return None
    return min(shared), min(days), tuple(point)


def point_text(p):
    s, d, a = p
    return b"%02d%02d:%02d %s %d.%d.%d.%d" % (s // 3600, s // 60 % 60, s % 60, DAYS[d], *a)


# Paths


def states(items):
    """The positions of a pattern that are open before any node."""
    out, i = {0}, 0
    while i < len(items) and items[i] is None:
        i += 1
        out.add(i)
    return frozenset(out)


def advance(items, live, node):
    out = set()
    for i in live:
        if i < len(items):
            if items[i] is None:
                out.add(i)
            elif items[i] == node:
                out.add(i + 1)
    for i in sorted(out):
        while i < len(items) and items[i] is None:
            i += 1
            out.add(i)
    return frozenset(out)


def search(site, items):
    """The own paths of a pattern, or a refusal's number."""
    near = {n: [] for n in range(len(site.nodes))}
    for a, b in site.links:
        near[a].append(b)
        near[b].append(a)
    count, found = 0, []
    stack = [((n,), advance(items, states(items), n)) for n in range(len(site.nodes))]
    while stack:
        path, live = stack.pop()
        if not live:
            continue
        count += 1
        if count > MAX_PARTIAL:
            return 16
        if len(items) in live and (len(path) > 1 or None not in items):
            found.append(path)
        for m in near[path[-1]]:
            if m not in path:
                stack.append((path + (m,), advance(items, live, m)))
    return found or 17


def touched(site, path):
    if len(path) == 1:
        return {p for p in site.ports() if p[1] == path[0]}
    out = set()
    for a, b in zip(path, path[1:]):
        i = [set(l) for l in site.links].index({a, b})
        out |= {(i, a), (i, b)}
    return out


# Rules


class Rule:
    pass


def declared(table, what, at):
    if len(what) > 16:
        raise Refused(11, at)
    if what not in table:
        raise Refused(12, at)
    return table.index(what)


def read_pattern(site, text, at):
    items = []
    while True:
        kind, what, here = text.word()
        if not (kind == "name" or what == b"*"):
            raise Refused(10, here)
        if len(items) == 12:
            raise Refused(11, here)
        items.append(None if what == b"*" else declared(site.nodes, what, here))
        what, here = text.sign(b",", b">")
        if what == b">":
            return (items, at)


def read_paths(site, text):
    text.sign(b"{")
    kind, what, at = text.word()
    if what == b"*":
        text.sign(b"}")
        return [([None], at)]
    patterns = []
    while True:
        if kind != "sign" or what != b"<":
            raise Refused(10, at)
        if len(patterns) == 4:
            raise Refused(11, at)
        patterns.append(read_pattern(site, text, at))
        what, _ = text.sign(b",", b"}")
        if what == b"}":
            return patterns
        kind, what, at = text.word()


def read_target(site, text):
    text.sign(b"{")
    kind, what, at = text.word()
    everything = set(range(len(site.classes)))
    if what == b"*":
        text.sign(b"}")
        return everything
    if what != b"traffic_class":
        raise Refused(10, at)
    sign, _ = text.sign(b"==", b"=", b"!=")
    text.sign(b"{")
    named, count = set(), 0
    while True:
        what, at = text.name()
        if count == 16:
            raise Refused(11, at)
        named.add(declared(site.classes, what, at))
        count += 1
        what, _ = text.sign(b",", b"}")
        if what == b"}":
            break
    text.sign(b"}")
    return everything - named if sign == b"!=" else named


def read_conditions(text):
    text.sign(b"{")
    condition, count = Condition(), 0
    kind, word, at = text.word()
    if word == b"*":
        text.sign(b"}")
        return condition
    while True:
        if kind != "name":
            raise Refused(10, at)
        if count == 8 or len(word) > 16:
            raise Refused(11, at)
        sign, _ = text.sign(b"==", b"!=", b">=", b"<=")
        kind, value, value_at = text.word(value_due=True)
        if kind != "value":
            raise Refused(10, value_at)
        if len(value) > 16:
            raise Refused(11, value_at)
        condition.take(word, sign, value, at, value_at)
        count += 1
        what, _ = text.sign(b",", b"}")
        if what == b"}":
            return condition
        kind, word, at = text.word()


def read_action(text):
    text.sign(b"{")
    what, at = text.name()
    if what not in (b"permit", b"deny", b"priority"):
        raise Refused(10, at)
    if what == b"priority":
        text.sign(b":=")
        number, at = text.name()
        if not number.isdigit():
            raise Refused(10, at)
        if len(number) > 3 or int(number) > 255:
            raise Refused(11, at)
    text.sign(b"}")
    return what != b"deny"


def read_rule(site, data, at):
    text, rule = Text(data, at), Rule()
    rule.id, rule.place = text.name()
    if len(rule.id) > 16:
        raise Refused(11, rule.place)
    user, place = text.name()
    rule.rank = site.ranks[declared(site.users, user, place)]
    patterns = read_paths(site, text)
    rule.target = read_target(site, text)
    rule.condition = read_conditions(text)
    rule.permits = read_action(text)
    text.sign(b";")
    rule.paths, rule.ports = [], set()
    for items, place in patterns:
        found = search(site, items)
        if isinstance(found, int):
            raise Refused(found, place)
        rule.paths += found
        for path in found:
            rule.ports |= touched(site, path)
    return rule, text.at


def says(site, rule, c):
    """True for permit, False for deny, None for silent."""
    if site.implied():
        return rule.permits and c in rule.target
    return rule.permits if c in rule.target else None


class Book:
    def __init__(self, site, room=64):
        self.site, self.room, self.rules = site, min(64, room), []

    def admit(self, data, at):
        rule, end = read_rule(self.site, data, at)
        if any(r.id == rule.id for r in self.rules):
            raise Refused(18, rule.place)
        if len(self.rules) >= self.room:
            raise Refused(19, rule.place)
        self.rules.append(rule)
        return end

    def withdraw(self, name):
        left = [r for r in self.rules if r.id != name]
        if len(left) == len(self.rules):
            raise Refused(20, 0)
        self.rules = left

    def report(self):
        out = []
        for i, r in enumerate(self.rules):
            for j in range(i + 1, len(self.rules)):
                s = self.rules[j]
                ports = sorted(r.ports & s.ports)
                classes = [
                    c
                    for c in range(len(self.site.classes))
                    if {says(self.site, r, c), says(self.site, s, c)} == {True, False}
                ]
                point = common(r.condition, s.condition)
                if ports and classes and point is not None:
                    mark = b"open" if r.rank == s.rank else b"first" if r.rank > s.rank else b"second"
                    out.append((i, j, mark, ports[0], classes[0], point))
        return out

    def line(self, entry):
        i, j, mark, (link, node), c, point = entry
        return b"%s %s %s link %d end %s class %s at %s" % (
            self.rules[i].id, self.rules[j].id, mark, link, self.site.nodes[node], self.site.classes[c], point_text(point),
        )

    def decide(self, port, c, point):
        if port not in self.site.ports() or not 0 <= c < len(self.site.classes):
            raise Refused(22, 0)
        heard = [
            (r.rank, says(self.site, r, c))
            for r in self.rules
            if port in r.ports and r.condition.holds(point) and says(self.site, r, c) is not None
        ]
        words = {w for rank, w in heard if rank == min(h[0] for h in heard)}
        return "silent" if not words else "split" if len(words) == 2 else "permit" if True in words else "deny"


def check(map_bytes, rules):
    """What the program rulecheck prints."""
    if len(map_bytes) > 65536 or len(rules) > 65536:
        return b"too long\n"
    try:
        book, at = Book(read_map(map_bytes)), 0
        while more(rules, at):
            at = book.admit(rules, at)
    except Refused as e:
        return b"refused %d at %d\n" % (e.number, e.place)
    entries = book.report()
    lines = [book.line(e) for e in entries]
    lines.append(b"%d pairs, %d open" % (len(entries), sum(e[2] == b"open" for e in entries)))
    return b"".join(l + b"\n" for l in lines)


if __name__ == "__main__":
    import sys

    with open("site.map", "rb") as f:
        sys.stdout.buffer.write(check(f.read(65537), sys.stdin.buffer.read(65537)))

"""Runs rulecheck and the second checker on random sites and rules, and tells where they differ.

    python3 tests/model/compare.py crates/rulecheck/out/rulecheck [SEED] [RUNS]
"""

import os
import random
import subprocess
import sys
import tempfile

import model


def field(tag, body):
    return bytes([tag, len(body) // 256, len(body) % 256]) + body


def random_site():
    """A connected site of 2 to 7 nodes: its map, and the names to write rules with."""
    count = random.randint(2, 7)
    nodes = [b"n%d" % i for i in range(count)]
    links = {(random.randrange(i), i) for i in range(1, count)}
    for _ in range(random.randint(0, 5)):
        a, b = random.sample(range(count), 2)
        links.add((min(a, b), max(a, b)))
    links = [random.choice([(a, b), (b, a)]) for a, b in links]
    classes = [b"data", b"voice", b"video"][: random.randint(1, 3)]
    users = [b"u%d" % i for i in range(random.randint(1, 4))]
    data = b"".join(field(1, n) for n in nodes)
    data += b"".join(field(2, bytes(l)) for l in links)
    data += b"".join(field(3, c) for c in classes)
    data += b"".join(field(4, bytes([random.randint(1, 3)]) + u) for u in users)
    reading = random.choice([None, 1, 2])
    if reading:
        data += field(5, bytes([reading]))
    return data, nodes, classes, users


def random_time():
    second = b":%02d" % random.choice([0, 1, 59]) if random.random() < 0.4 else b""
    return b"%02d%02d" % (random.choice([0, 6, 8, 12, 22, 23]), random.choice([0, 30, 59])) + second


def random_conditions():
    out = []
    if random.random() < 0.6:
        out.append(b"time >= " + random_time())
    if random.random() < 0.6:
        out.append(b"time <= " + random_time())
    for _ in range(random.choice([0, 0, 1, 2])):
        out.append(b"day %s %s" % (random.choice([b"==", b"!=", b">=", b"<="]), random.choice(model.DAYS)))
    for _ in range(random.choice([0, 0, 1, 2, 3])):
        depth = random.randint(0, 4)
        parts = [b"%d" % random.choice([0, 1, 131]) for _ in range(depth)] + [b"*"] * (4 - depth)
        out.append(b"hostIP %s %s" % (random.choice([b"==", b"!=", b"!="]), b".".join(parts)))
    return b", ".join(out[:8]) or b"*"


def random_rule(number, nodes, classes, users):
    def pattern():
        return b"<" + b",".join(random.choice(nodes + [b"*", b"*"]) for _ in range(random.choice([1, 2, 2, 3, 3, 4]))) + b">"

    paths = b"*" if random.random() < 0.2 else b",".join(pattern() for _ in range(random.choice([1, 1, 2, 4])))
    named = b",".join(random.choice(classes) for _ in range(random.choice([1, 2, 3])))
    target = b"*" if random.random() < 0.3 else b"traffic_class %s {%s}" % (random.choice([b"==", b"=", b"!="]), named)
    action = random.choice([b"permit", b"permit", b"deny", b"priority := %d" % random.randint(0, 255)])
    name = number if random.random() < 0.97 else 0
    return b"r%d %s {%s} {%s} {%s} {%s};\n" % (name, random.choice(users), paths, target, random_conditions(), action)


def random_rules(data, nodes, classes, users):
    """Up to 12 rules, most of which are accepted."""
    site, text = model.read_map(data), b""
    for number in range(random.randint(0, 12)):
        for _ in range(4):
            rule = random_rule(number, nodes, classes, users)
            try:
                model.read_rule(site, rule, 0)
            except model.Refused:
                if random.random() < 0.9:
                    continue
            text += rule
            break
    return text


def main():
    program = os.path.abspath(sys.argv[1])
    random.seed(int(sys.argv[2]) if len(sys.argv) > 2 else 1)
    runs = int(sys.argv[3]) if len(sys.argv) > 3 else 400
    differ = 0
    for _ in range(runs):
        data, nodes, classes, users = random_site()
        text = random_rules(data, nodes, classes, users)
        with tempfile.TemporaryDirectory() as folder:
            with open(os.path.join(folder, "site.map"), "wb") as f:
                f.write(data)
            wanted = model.check(data, text)
            got = subprocess.run([program], input=text, capture_output=True, cwd=folder).stdout
        if wanted != got:
            differ += 1
            print("map", data.hex(), "rules", text.decode(), "wanted", wanted.decode(), "got", got.decode(), sep="\n")
    print(f"{runs} runs, {differ} differ")


if __name__ == "__main__":
    main()

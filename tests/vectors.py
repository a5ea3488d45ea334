#!/usr/bin/env python3
"""Makes crates/vectors/stdin, the cases, and crates/vectors/stdout, what the program must print.

The published examples come from tests/vectors/, with their published digests and tags; lengths around
the block's and the limit's bounds are added, with digests and tags by Python's hashlib and hmac.
Every published value is compared with hashlib's and hmac's too.

A line of stdin: digest LABEL SHOWN INPUT, or tag LABEL SHOWN KEY INPUT. SHOWN is how many bytes are printed; INPUT and KEY are
two words each, N HEX: those bytes again and again up to N. A line of stdout: the label, and the bytes in hexadecimal or "refused 9".
"""
import hashlib, hmac, os

here = os.path.dirname(os.path.abspath(__file__))
crate = os.path.join(here, "..", "crates", "vectors")
LIMIT = 65535
cases, expected = [], []


def spelled(n, part):
    return f"{n} {part.hex()}"


def value(n, part):
    return (part * (n // len(part) + 1))[:n]


def run(label, shown, parts, published=None):
    values = [value(*p) for p in parts]
    if any(len(v) > LIMIT for v in values):
        found = "refused 9"
    elif len(values) == 1:
        found = hashlib.sha256(values[0]).digest()[:shown].hex()
    else:
        found = hmac.new(values[0], values[1], hashlib.sha256).digest()[:shown].hex()
    assert published in (None, found), label
    cases.append(" ".join(["digest" if len(parts) == 1 else "tag", label, str(shown)] + [spelled(*p) for p in parts]))
    expected.append(f"{label} {found}")


def lines(name):
    with open(os.path.join(here, "vectors", name)) as f:
        return [l.split() for l in f if l.strip() and not l.startswith("#")]


def whole(part):
    return (len(part), part)


for i, words in enumerate(lines("sha256-nist.txt"), 1):
    kind, published = words[0], words[-1]
    if kind == "text":
        part = whole(words[1].encode())
    elif kind == "hex":
        part = whole(bytes.fromhex(words[1]))
    else:
        part = (int(words[1]), bytes.fromhex(words[2]))
    run(f"nist-{i}", 32, [part], published)

for number, key, data, published in lines("hmac-rfc4231.txt"):
    run(f"rfc4231-{number}", len(published) // 2, [whole(bytes.fromhex(key)), whole(bytes.fromhex(data))], published)


def sized(n):
    """n bytes: 0 to 250 again and again, started at n"""
    return (n, bytes((n + i) % 251 for i in range(max(1, min(n, 251)))))


LENGTHS = [0, 55, 56, 63, 64, 65, 119, 120, 65535, 65536]
KEYS = [0, 63, 64, 65, 65535, 65536]
for n in LENGTHS:
    run(f"digest-{n}", 32, [sized(n)])
for n in LENGTHS:
    run(f"tag-input-{n}", 32, [sized(32), sized(n)])
for n in KEYS:
    run(f"tag-key-{n}", 32, [sized(n), sized(48)])

for name, text in ("stdin", cases), ("stdout", expected):
    with open(os.path.join(crate, name), "w") as f:
        f.write("\n".join(text) + "\n")

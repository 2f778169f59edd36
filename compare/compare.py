#!/usr/bin/env python3
"""Runs scripts through the program `link_script` and through quinn-proto's own files, and compares every answer.

    QUINN_SRC=/path/to/quinn-proto/src python3 compare/compare.py random FIRST_SEED LAST_SEED CALLS
    QUINN_SRC=/path/to/quinn-proto/src python3 compare/compare.py all [hash | edges | stores | logs | resets]
    QUINN_SRC=/path/to/quinn-proto/src python3 compare/compare.py sample [resets]

`random` gives each seed two scripts, one of all kinds of calls (tools/link_compare.py says how) and one of arrivals that fill a
log. `all` goes through short successions of a few calls, all
there are, and through arrivals around every edge. `sample` writes scripts and the Rust's answers for `.ci/replay`.
A call that the part refuses, or a token whose issue time is past the part's range, has no answer there (`-`); what else
differs is told, and the script is left in difference.txt.
"""
import collections
import itertools
import pathlib
import random
import subprocess
import sys

HERE = pathlib.Path(__file__).parent
sys.path.insert(0, str(HERE.parent / "tools"))

import link_compare
import link_model
from link_model import SECOND, Bench, encode, shown

OURS = link_compare.PROGRAM
RUST = HERE / "target/release/compare"
SAMPLE = HERE / "sample"
KEY = bytes(range(16))
SECRET = bytes(range(32))


def run(program, text):
    return subprocess.run([program], input=text, capture_output=True, text=True, check=True).stdout.splitlines()


def without_cause(line):
    words = line.split()
    return " ".join(words[:1] + words[2:]) if words[0] in ("validated", "unvalidated", "rejected") else line


def has_none(line):
    """Whether the Rust has no answer where the part answers so: a refusal, or what may be a late issue time."""
    return line.startswith(("refused ", "unvalidated 22 ")) and not line.startswith("refused slip")


class Count:
    def __init__(self):
        self.kinds, self.none, self.scripts = collections.Counter(), 0, 0

    def compare(self, name, lines):
        text = "\n".join(lines) + "\n"
        ours, rust = run(OURS, text), run(RUST, text)
        if len(ours) != len(rust):
            return self.differs(name, text, len(rust), "another number of answers", "")
        self.scripts += 1
        for i, (a, b) in enumerate(zip(ours, rust)):
            if b == "-":
                if not has_none(a):
                    return self.differs(name, text, i, a, b)
                self.none += 1
            elif without_cause(a) != b:
                return self.differs(name, text, i, a, b)
            else:
                self.kinds[b.split()[0]] += 1
        return True

    def differs(self, name, text, i, ours, rust):
        pathlib.Path("difference.txt").write_text(text)
        print(f"{name}, answer {i + 1}: here {ours!r}, there {rust!r}")
        return False

    def told(self):
        for kind, count in sorted(self.kinds.items()):
            print(f"{count:>9} {kind}")
        print(f"{self.kinds.total():>9} answers of {self.scripts} scripts, no difference; {self.none} calls without an answer there")


class RustScript(link_compare.Script):
    """A random script of what the Rust has too: its logs and its hash count, and lines that are calls."""

    odd_logs = odd_stores = ()
    WEIGHTS = [30, 40, 15, 8, 10, 0, 1, 0, 0], [5, 5, 2, 2, 80, 0, 1, 0, 0]

    def hash_count(self):
        return self.pick("k 1000 10", "k 0 0", "k 4294967295 1")

    def log(self):
        k = self.pick(1, 3, 64)
        return self.pick(
            "none", f"turning {self.pick(0, 47, 48, 112, 128, 1000, 16_777_217)} {k}", f"turning {self.pick(16, 48, 64)} {self.pick(0, 1, 2, 65)}",
            f"expected {self.pick(1000, 4000)} {self.pick(100, 1000)}")

    def cache(self):
        return "cache"

    def head(self):
        return itertools.islice(super().head(), 1, None)

    def calls_made(self):
        """The lines without their ends, once all are answered."""
        for _ in self.answers():
            pass
        return [line.decode().rstrip("\r\n") for line in self.lines]


def fills(seed, calls):
    """Arrivals that fill a log, make it go over, and come again, while the periods go by."""
    r = random.Random(seed)
    lifetime = r.choice([1, 10, 1_209_600])
    budget, lows, used = r.choice([16, 48, 64, 112, 128, 240, 1000]), r.choice([3, 10, 40, 2**64]), []
    kind = r.choice([f"turning {budget} {r.choice([1, 3, 64])}", f"expected {r.choice([400, 4000])} {r.choice([50, 1000])}"])
    lines, now = head(log=kind, lifetimes=(0, lifetime * SECOND)), r.choice([0, 1000, 1_700_000_000])
    ip = bytes([192, 0, 2, 7])
    for _ in range(calls):
        if r.random() < 0.03:
            now += r.choice([1, lifetime // 2, lifetime - 1, lifetime, lifetime + 1, 2 * lifetime, 3 * lifetime - 1, 3 * lifetime])
        if used and r.random() < 0.3:
            low, issued = r.choice(used[-20:])
        else:
            low, issued = r.randrange(lows), max(0, now + r.choice([0, 0, 0, 1, -1, lifetime // 2, lifetime]))
            used.append((low, issued))
        expiry = (issued + lifetime) * SECOND
        clock = r.choice([0, issued * SECOND, expiry - 1, expiry, expiry, expiry + 1])
        lines.append(f"arrive {sealed(('validation', ip, issued), low).hex()} aa 192.0.2.7 {r.choice([0, 4433])} {clock}")
    return lines


def randoms(first, last, calls):
    for seed in range(first, last + 1):
        yield f"seed {seed}", RustScript(seed, calls).calls_made()
        yield f"seed {seed}, a log filled", fills(seed, calls)


# ---- all short successions
def head(scheme="bench", log="none", lifetimes=(15 * SECOND, 10 * SECOND), store="none"):
    secret = KEY if scheme == "bench" else SECRET
    return [f"scheme {scheme} {secret.hex()}", f"log {log}", f"gate {lifetimes[0]} {lifetimes[1]}", f"store {store}"]


def sealed(content, low, scheme=Bench(KEY)):
    nonce = low.to_bytes(8, "little") + bytes(8)
    return scheme.seal(nonce, encode(content)) + nonce


def stores(length):
    """All successions of so many calls on a cache; six takes empty it before the next."""
    calls = ["insert a 00", "insert a 01", "insert a 02", "insert b 00", "insert c 00", "take a", "take b", "take c"]
    empty = ["take a", "take b", "take c"] * 2
    for names, tokens in itertools.product((1, 2), (1, 2)):
        lines = head(store=f"cache {names} {tokens}")
        for succession in itertools.product(calls, repeat=length):
            lines += list(succession) + empty
        yield f"stores {names} {tokens}", lines


def logs(length):
    """All successions of so many arrivals at a log that is as new: the first of each comes long after the last."""
    lifetime, ip = 10, bytes([192, 0, 2, 7])
    arrivals = [(low, after) for low in (1, 2) for after in (0, 9, 10, 19, 20, 29, 30)]
    for budget, k in ((16, 3), (48, 1), (48, 3)):
        lines, start = head(log=f"turning {budget} {k}"), 1000
        for succession in itertools.product(arrivals, repeat=length):
            for low, after in ((0, 0),) + succession:
                token = sealed(("validation", ip, start + after), low)
                lines.append(f"arrive {token.hex()} aa 192.0.2.7 1 0")
            start += 100
        yield f"logs {budget} {k}", lines


def edges():
    """Arrivals of whole, damaged and cut tokens, at every edge of address and time."""
    issued, retry, validation = 1000, 15, 10
    v4, v6 = bytes([192, 0, 2, 7]), bytes.fromhex("20010db8000000000000000000000007")
    contents = [("retry", ip, 4433, cid, issued) for ip in (v4, v6) for cid in (b"", b"\xaa" * 20)] + [("validation", ip, issued) for ip in (v4, v6)]
    addresses = ["192.0.2.7 4433", "192.0.2.7 4434", "192.0.2.8 4433", f"{v6.hex()} 4433", f"{v6[:-1].hex()}08 4433", f"{bytes(10).hex()}ffffc0000207 4433"]
    clocks = [0] + [(issued + life) * SECOND + d for life in (0, retry, validation) for d in (-1, 0, 1)] + [4_294_967_295_999_999_999]
    for kind, scheme in (("bench", Bench(KEY)), ("ccm", link_model.Ccm(SECRET))):
        for log in ("none", "turning 4096 3"):
            lines, low = head(kind, log), 0
            for content in contents:
                for address, clock in itertools.product(addresses, clocks):
                    low += 1
                    token = sealed(content, low, scheme)
                    lines += [f"arrive {token.hex()} {cid} {address} {clock}" for cid in ("aabb", "-", "cc" * 20)]
                    lines.append(f"retry {low} 1 {clock}")
                token = sealed(content, 7, scheme)
                bad = [token[:n] for n in range(len(token))] + [bytes(b ^ (i == n) << bit for i, b in enumerate(token)) for n in range(len(token)) for bit in (0, 7)]
                lines += [f"arrive {b.hex() or '-'} aabb {address} {issued * SECOND}" for b in bad for address in addresses[::3]]
            yield f"edges {kind} {log}", lines


def hash_counts():
    values = [0, 1, 2, 3, 7, 8, 9, 100, 1000, 4096, 10**6, 10**9, 2**31, 2**32 - 1]
    yield "hash counts", head() + [f"k {b} {h}" for b, h in itertools.product(values, repeat=2)]


def resets():
    """Tokens of ids of every length under keys of many lengths, and datagrams of every length, whole and damaged."""
    ids = [bytes(range(1, n + 1)) for n in range(22)]
    keys = [bytes(range(n)) for n in (0, 1, 16, 31, 32, 33, 63, 64, 65, 131)]
    lines = head() + [f"reset hmac {shown(key)} {shown(cid)}" for key in keys for cid in ids]
    lines += [f"reset bench {(key + KEY)[:16].hex()} {shown(cid)}" for key in keys for cid in ids]
    tokens = [bytes([n]) + KEY[1:] for n in range(6)]
    for held in range(6):
        for token in tokens:
            datagram = KEY * 2 + token
            lines += [f"datagram {shown(datagram[-n:] if n else b'')}" for n in range(49)]
            lines += [f"datagram {bytes(b ^ (i == n) << bit for i, b in enumerate(datagram)).hex()}" for n in range(48) for bit in (0, 7)]
        lines += [f"remember {tokens[held].hex()}"] * 2
    yield "resets", lines


def everything():
    return itertools.chain(hash_counts(), edges(), stores(5), logs(4), resets())


# ---- a sample of the Rust's answers
def answered(lines):
    """A script without the calls that the Rust has no answer to, and its answers."""
    while True:
        answers = run(RUST, "\n".join(lines) + "\n")
        if "-" not in answers:
            return lines, answers
        lines = [line for line, answer in zip(lines, answers) if answer != "-"]


def sampled():
    yield from (RustScript(seed, 150).calls_made() for seed in range(1, 31))
    yield from (fills(seed, 70) for seed in range(1, 16))
    yield from (lines[:4] + random.Random(name).sample(lines[4:], 120) for name, lines in itertools.chain(edges(), stores(3)))
    yield from (lines[:304] for _, lines in logs(2))


def sample(names):
    """A sample anew; or, with names of families, what is there and a ninth of each of these behind it."""
    scripts = (lines[:4] + lines[4::9] for _, lines in families(names)) if names else sampled()
    texts = [(SAMPLE / "scripts").read_text()] if names else []
    answers = (SAMPLE / "answers").read_text().splitlines() if names else []
    for script in scripts:
        lines, told = answered([line for line in script if line and not line.startswith("#")])
        if len(told) > 4:
            texts.append("\n".join(lines) + "\n")
            answers += told
    (SAMPLE / "scripts").write_text("end\n".join(texts))
    (SAMPLE / "answers").write_text("\n".join(answers) + "\n")
    print(f"{len(answers)} answers")


def families(names):
    """The exhaustive scripts of these names, or all."""
    return (pair for pair in everything() if not names or pair[0].split()[0] in names)


def main(kind, *numbers):
    subprocess.run(["cargo", "build", "--release", "--offline", "--quiet"], cwd=HERE, check=True)
    if kind == "sample":
        return sample(numbers)
    count = Count()
    for name, lines in families(numbers) if kind == "all" else randoms(*map(int, numbers)):
        if not count.compare(name, lines):
            return 1
    return count.told()


if __name__ == "__main__":
    raise SystemExit(main(*sys.argv[1:]))

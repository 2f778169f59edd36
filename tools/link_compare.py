#!/usr/bin/env python3
"""Runs random scripts through the program `link_script` and through its model, and compares every answer.

    (cd crates/link_script && rt run < /dev/null)    # builds the program
    python3 tools/link_compare.py FIRST_SEED LAST_SEED CALLS

A seed gives a script: scheme, log and lifetimes, then so many calls around every edge (times at and past an expiry,
tokens that were written before, whole and damaged, names and tokens stored again, buffers one short, lines that are no calls, no
text or too long, both line ends and none at the end). It stops at the first difference, and leaves that script in difference.txt;
else it prints how often each answer came.
"""
import collections
import pathlib
import random
import subprocess
import sys

import link_model
from link_model import LAST_CLOCK, LONGEST_LIFETIME, LONGEST_LINE, SECOND, Bench, Ccm, encode

PROGRAM = pathlib.Path(__file__).parent.parent / "crates/link_script/out/link_script"
DAY = 86_400 * SECOND
IPS = ["192.0.2.7", "192.0.2.8", "10.0.0.1", "20010db8" + "0" * 22 + "07", "20010db8" + "0" * 22 + "08", "0" * 32]
NO_TOKENS = ["-", "00" * 15, "00" * 16, "00" * 81, "00" * 82]
NAMES = ["a", "b", "c", "d", "-", "n" * 255, "n" * 254 + "m"]
STORED = ["-", "00", "01", "0102", "0103", "05" * 512, "05" * 511 + "06"]
ODD_STORE_CALLS = ["take - room 511", "take " + "n" * 256 + " room 511", "take " + "n" * 256, "insert " + "n" * 256 + " 00", "insert a " + "00" * 513]
KEYS = ["-", "00", "4a656665", "aa" * 64, "aa" * 65, "0b" * 131]
IDS = ["-", "00", "aabb", "0102030405060708", "07" * 19, "07" * 20, "07" * 21, "07" * 300]
RESETS = ["00" * 16, "00" * 15 + "01", "ff" * 16, "7f" + "ff" * 15, "000102030405060708090a0b0c0d0e0f", "aabbccdd" * 4]
NO_CALLS = [
    "reset", "reset hmac", "reset hmac 00", "reset hmac zz 00", "reset hmac 00 0", "reset hmac 00 00 00", "reset hmac 00 00 working 4097", "reset rsa 00 00",
    "reset bench 00 00", "reset bench - 00", "reset bench " + "00" * 17 + " 00", "remember", "remember -", "remember " + "00" * 15, "remember " + "00" * 17,
    "remember " + "00" * 16 + " 00", "remember " + "0G" * 16, "datagram", "datagram 0", "datagram 00 00", "datagram " + "AA" * 21,
    "foo", "accept x", "arrive", "issue 1", "issue 1 2 300.0.0.1 5", "k -1 2", "arrive zz - 1.2.3.4 1 1", "retry 1 2", "take",
    "  ", "# c", "issue 18446744073709551616 0 1.2.3.4 0", "arrive - - 1.2.3.4 65536 0", "issue 01 2 1.2.3.4 5",
    "issue +1 2 1.2.3.4 5", "issue 1 2 +1.2.3.4 5", "issue 1 2 001.2.3.4 5", "issue 1 2 1.2.3.4.5 5", "issue 1 2 0.0.0.00 5",
    "issue 1 2 " + "AB" * 16 + " 5", "arrive - - 1.2.3.4 +1 0", "arrive - - 1.2.3.4 080 0", "k 00 1", "k +0 1", "k -0 1", "k \u0661 1",
    "take a room 0600", "accept ", " accept", "accept\t", "accept\0", "accept\r", "\r", "Accept", "\ufeffaccept", "take \u00e9",
    "open", "open 4", "open x", "open 0 0", "open 00", "validate 4", "receive 0", "receive 4 1", "receive 0 -1", "receive 0 18446744073709551616",
    "grant 0 0", "grant 0 8 1", "grant 4 0 1", "grant 0 0 4294967296", "spend 0", "spend 0 8 1", "spend 0 0 +1", "close -", "close 1 ",
    "accept\x0baccept", "accept\x85", "accept\u2028accept", "k half", "k half 1", "k half 1 2 3", "k half half 1 2",
    "k 1 half", "k half 01 1", "k half 1 4294967296", "k  half 1 1", "k halves 1 2", "half 1 2", "log half 1 2", "k 1 " + "9" * 5000, " " * 5000, "",
]
NO_TEXTS = [
    b"\xff", b"accept \xc3", b"# \xff", b"#\xc3(", b"take \xed\xa0\x80", b"take \xf4\x90\x80\x80", b"take \xc0\x80", b"\x80accept",
    b"\xfe\xff\0a\0c", b"insert \xe9 00",
]
ODD_STORES = ["", "store newest", "store newest 1", "store newest 1 2 3", "store newest 1 -2", "store newer 1 2", "store cache 1", "store none 1"]
ODD_LOGS = ["", "log half 1000", "log half 1000 half", "log half 1 2 3", "log half 4294967296 1", "log halves 1 2", "log"]
COUNTED = [0, 1, 3, 23, 24, 93, 1000, 10_485_760, 2**31, 2**32 - 1]
LONG_LINES = [(b"#", 0), (b"#", 9), (b"foo ", 0), (b"foo ", 1), (b"foo ", 2), (b"foo ", 3), (b"\xff", 0), (b"\xff", 5_000_000), (b" ", 1)]


class Script:
    """Lines that depend on the answers so far: `answer` is the newest one, `tokens` are those that were written."""

    KINDS = ["issue", "arrive", "retry", "end", "store", "path", "k", "reset", "none"]
    WEIGHTS = (
        [30, 40, 15, 8, 10, 2, 1, 8, 4], [5, 5, 2, 2, 80, 2, 1, 2, 4], [5, 8, 1, 8, 1, 80, 1, 2, 2], [2, 2, 1, 1, 2, 1, 1, 90, 4])
    odd_logs, odd_stores = ODD_LOGS, ODD_STORES

    def __init__(self, seed, calls):
        self.random, self.calls = random.Random(seed), calls
        self.lines, self.answer, self.tokens = [], None, []
        self.retry = self.pick(0, SECOND, 15 * SECOND, LONGEST_LIFETIME, LONGEST_LIFETIME + self.pick(0, 0, 1))
        self.validation = self.pick(0, 1, SECOND - 1, SECOND, 10 * SECOND, 14 * DAY, LONGEST_LIFETIME)
        self.now = self.pick(0, 1000 * SECOND, 1_700_000_000 * SECOND, LAST_CLOCK - 100 * SECOND)
        self.weights = self.pick(*self.WEIGHTS)
        self.resets, self.resets_used = [], (1, 3, 4, 5, len(RESETS))[seed % 5]
        self.names_used = self.pick(1, 3, len(NAMES))
        self.ends = self.pick([b"\n"], [b"\r\n"], [b"\n", b"\r\n"])

    def pick(self, *of):
        return self.random.choice(of)

    def chance(self, p):
        return self.random.random() < p

    def clock(self):
        edges = [x * k + d for x in (self.retry, self.validation) for k in (0, 1, 2, 3) for d in (-1, 0, 1)]
        step = max(0, self.pick(0, SECOND // 2, SECOND, *edges))
        if self.chance(0.15):
            self.now = min(self.now + step, 2**64 - 1)
        return max(0, min(2**64 - 1, self.now + self.pick(0, 0, 0, 1, -1, SECOND, -SECOND, step)))

    def number(self):
        return self.pick(0, 1, 7, 2**64 - 1, self.random.getrandbits(64))

    def damaged(self):
        token = bytearray.fromhex(self.pick(*self.tokens))
        way = self.pick("turned", "cut", "longer")
        if way == "turned":
            token[self.random.randrange(len(token))] ^= 1 << self.random.randrange(8)
        elif way == "cut":
            del token[self.random.randrange(len(token)):]
        else:
            token.append(self.random.getrandbits(8))
        return token.hex() or "-"

    def strange(self):
        """A token that opens, to a content or to something near one."""
        second, ip = self.now // SECOND % 2**32, self.pick(bytes([192, 0, 2, 7]), bytes(16))
        retry = ("retry", ip, 4433, bytes(self.pick(0, 2, 20)), second)
        content = bytearray(encode(self.pick(retry, ("validation", ip, second))))
        way = self.pick("whole", "turned", "cut", "longer")
        if way == "turned":
            content[self.random.randrange(len(content))] ^= 1 << self.random.randrange(8)
        elif way == "cut":
            del content[self.random.randrange(len(content)):]
        elif way == "longer":
            content.append(0)
        nonce = self.random.randbytes(16)
        return (self.scheme.seal(nonce, bytes(content)) + nonce).hex()

    def token(self):
        if self.chance(0.05):
            return self.strange()
        if not self.tokens or self.chance(0.1):
            return self.pick(*NO_TOKENS)
        return self.damaged() if self.chance(0.1) else self.pick(*self.tokens[-12:])

    def room(self, word, *lengths):
        return f" {word} {self.pick(*lengths)}" if self.chance(0.1) else ""

    def call(self):
        kind = self.random.choices(self.KINDS, self.weights)[0]
        if kind == "issue":
            rooms = self.room("room", 80, 81, 100) + self.room("working", 95, 96, 200)
            return f"issue {self.number()} {self.number()} {self.pick(*IPS)} {self.clock()}{rooms}"
        if kind == "arrive":
            destination = "03" * 21 if self.chance(0.03) else self.pick("aabb", "-", "01" * 20)
            port, room = self.pick(0, 4433, 65535), self.room("working", 95, 96)
            return f"arrive {self.token()} {destination} {self.pick(*IPS)} {port} {self.clock()}{room}"
        if kind == "retry":
            return f"retry {self.number()} {self.number()} {self.clock()}{self.room('room', 80, 81)}"
        if kind == "end":
            return self.pick("accept", "refuse", "ignore")
        if kind == "store":
            return self.store_call()
        if kind == "path":
            return self.path_call()
        if kind == "reset":
            return self.reset_call()
        return self.hash_count() if kind == "k" else self.no_call()

    def hash_count(self):
        budget, hits = (self.pick(*COUNTED, self.random.getrandbits(32 - self.random.randrange(32))) for _ in range(2))
        return f"k {self.pick('', 'half ')}{budget} {hits}"

    def no_call(self):
        if self.chance(0.005):
            begun, past = self.pick(*LONG_LINES)
            return begun + self.pick(b"x", b" ", b"\xff", b"\r") * (LONGEST_LINE + past - len(begun))
        if self.chance(0.1):
            return self.random.randbytes(self.random.randrange(9)).replace(b"\n", b"") + b"\xff"
        return self.pick(*NO_CALLS, *NO_TEXTS)

    def store_call(self):
        if self.chance(0.05):
            return self.pick(*ODD_STORE_CALLS)
        name = self.pick(*NAMES[: self.names_used])
        return f"insert {name} {self.pick(*STORED)}" if self.chance(0.6) else f"take {name}{self.room('room', 512, 600)}"

    def cache(self):
        return self.pick("cache", "newest")

    def path_call(self):
        kind = self.random.choices(["open", "validate", "receive", "grant", "spend", "close"], [12, 1, 15, 40, 40, 6])[0]
        path, grant = self.random.randrange(4), self.random.randrange(8)
        if kind == "receive":
            return f"receive {path} {self.pick(0, 1, 1, 2, 3, 400, 1200, 21_845, 2**40 - 1, 2**40, 2**64 - 1)}"
        if kind in ("grant", "spend"):
            return f"{kind} {path} {grant} {self.pick(0, 1, 2, 3, 3, 4, 6, 9, 1200, 1201, 3600, 65_535, 65_536, 2**32 - 1)}"
        return f"{kind} {path}"

    def reset_call(self):
        kind = self.random.choices(["reset", "remember", "datagram"], [2, 1, 2])[0]
        if kind == "reset":
            key = f"bench {self.random.randbytes(16).hex()}" if self.chance(0.4) else f"hmac {self.pick(*KEYS, self.random.randbytes(32).hex())}"
            cid = self.pick(*IDS) if self.chance(0.5) else self.random.randbytes(self.random.randrange(1, 21)).hex()
            return f"reset {key} {cid}{self.room('working', 96, 159, 160, 161, 4096)}"
        token = self.pick(*self.resets[-3:], *RESETS[: self.resets_used])
        if kind == "remember":
            return f"remember {token}"
        datagram = self.random.randbytes(self.pick(0, 4, 5, 5, 6, 21, 1200)) + bytes.fromhex(token)
        way = self.pick("whole", "whole", "turned", "cut", "longer", "front")
        if way == "turned":
            datagram = bytes(b ^ (i == len(datagram) - self.random.randrange(1, 17)) << self.random.randrange(8) for i, b in enumerate(datagram))
        elif way == "cut":
            datagram = datagram[: self.random.randrange(len(datagram))]
        elif way == "longer":
            datagram += b"\0"
        elif way == "front":
            datagram = datagram[-16:] + datagram[:-16]
        return f"datagram {datagram.hex() or '-'}"

    def store(self):
        if self.chance(0.2):
            return "none"
        names, tokens = self.pick(0, 1, 2, 3, 5, 256, 1024, 1025), self.pick(0, 1, 2, 3, 16, 17)
        return f"{self.cache()} {names} {tokens}"

    def log(self):
        k = self.pick(1, 3, 64)
        return self.pick(
            "none", f"set {self.pick(0, 1, 2, 4, 4, 30, 30)}", f"bloom {self.pick(0, 16, 64, 200)} {k}",
            f"turning {self.pick(0, 47, 48, 112, 128, 1000, 16_777_217)} {k}", f"expected {self.pick(1000, 4000)} {self.pick(100, 1000)}",
            f"half {self.pick('23 1', '24 1', '93 4', '94 4', '1000 100', '1001 1000', '4000 1000', '16777217 1000000')}")

    def head(self):
        yield self.pick("# a script", "", "no scheme")
        ccm = self.chance(0.3)
        secret = self.random.randbytes(32 if ccm else 16)
        self.scheme = (Ccm if ccm else Bench)(secret)
        yield f"scheme {'ccm' if ccm else 'bench'} {secret.hex()}"
        if self.odd_logs:
            yield self.pick(*self.odd_logs)
        yield "log " + self.log()
        yield f"gate {self.retry} {self.validation}"
        if self.odd_stores:
            yield self.pick(*self.odd_stores)
        yield "store " + self.store()

    def line(self, said):
        """A line with an end, and without it. A return before the end is a part of it."""
        line = said.encode() if isinstance(said, str) else said
        self.lines.append(line + self.pick(*self.ends))
        return next(link_model.lines_of([self.lines[-1]]))

    def __iter__(self):
        for said in self.head():
            yield self.line(said)
        for _ in range(self.calls):
            yield self.line(self.call())
            if self.answer.startswith("token "):
                self.tokens.append(self.answer[6:])
            if self.answer.startswith("reset "):
                self.resets.append(self.answer[6:])

    def text(self):
        """All lines, the last one with an end or without."""
        *before, last = self.lines
        return b"".join(before) + self.pick(last, *link_model.lines_of([last]))

    def answers(self):
        for self.answer in link_model.answers(self):
            yield self.answer


def kind_of(answer):
    words = answer.split()
    if words[0] == "error":
        return " ".join(["error", *words[2:]])
    return " ".join(words[:2]) if words[0] in ("validated", "unvalidated", "rejected", "refused", "a", "no") else words[0]


def main(first, last, calls):
    kinds = collections.Counter()
    for seed in range(first, last + 1):
        script = Script(seed, calls)
        wanted = list(script.answers())
        text = script.text()
        ran = subprocess.run([PROGRAM], input=text, capture_output=True, check=False)
        if ran.returncode or ran.stdout.decode().splitlines() != wanted:
            pathlib.Path("difference.txt").write_bytes(text)
            print(f"seed {seed}: the answers differ")
            return 1
        kinds.update(map(kind_of, wanted))
    for kind, count in sorted(kinds.items()):
        print(f"{count:>9} {kind}")
    print(f"{kinds.total():>9} answers, no difference")
    return 0


if __name__ == "__main__":
    raise SystemExit(main(*map(int, sys.argv[1:])))

#!/usr/bin/env python3
"""The rules of docs/RULES.md as a plain model: reads a script of `link_script` and prints what it must answer.

It shares no code with the part. AES-CCM is that of the package `cryptography` (OpenSSL), HMAC that of Python.

    python3 tools/link_model.py < crates/link_script/stdin > crates/link_script/stdout
"""
import hashlib
import hmac
import math
import re
import sys

SECOND = 1_000_000_000
LAST_CLOCK = 4_294_967_295_999_999_999
LONGEST_LIFETIME = 1_073_741_824 * SECOND
MOST = 4096
MOST_PLACES = 1_048_576
LENT_PATHS, PATHS, GRANTS = 3, 4, 8
LONGEST_LINE = 4_194_304
RESET_PLACES = 4


class Refused(Exception):
    """A call that is refused, with its number."""


class Unmade(Exception):
    """A call that is not made, with what is missing for it."""


class Bad(Exception):
    """A line that is no call, with what is wrong."""


# ---- contents
def encode_ip(ip):
    return bytes([0 if len(ip) == 4 else 1]) + ip


def encode(content):
    if content[0] == "retry":
        _, ip, port, cid, seconds = content
        return b"\0" + encode_ip(ip) + port.to_bytes(2, "big") + bytes([len(cid)]) + cid + seconds.to_bytes(8, "big")
    _, ip, seconds = content
    return b"\1" + encode_ip(ip) + seconds.to_bytes(8, "big")


def decode(data):
    """The content that bytes say, or None."""
    def take(n):
        nonlocal data
        if len(data) < n:
            raise ValueError
        part, data = data[:n], data[n:]
        return part

    def ip():
        kind = take(1)[0]
        if kind > 1:
            raise ValueError
        return take(4 if kind == 0 else 16)

    try:
        kind = take(1)[0]
        if kind > 1:
            raise ValueError
        where = ip()
        port = int.from_bytes(take(2), "big") if kind == 0 else None
        if kind == 0:
            size = take(1)[0]
            if size > 20:
                raise ValueError
            cid = take(size)
        seconds = int.from_bytes(take(8), "big")
        if seconds > 0xFFFFFFFF or data:
            raise ValueError
        return ("retry", where, port, cid, seconds) if kind == 0 else ("validation", where, seconds)
    except ValueError:
        return None


# ---- sealing schemes
class Bench:
    def __init__(self, key):
        self.key = key

    def checks(self, nonce, content):
        return bytes((self.key[j] + nonce[j] + sum(content[j::16])) % 256 for j in range(16))

    def seal(self, nonce, content):
        return content + self.checks(nonce, content)

    def signature(self, message):
        return self.checks(bytes(16), message)

    def open(self, nonce, sealed):
        if not 16 <= len(sealed) <= 80 or self.seal(nonce, sealed[:-16]) != sealed:
            return None
        return sealed[:-16]


class Ccm:
    def __init__(self, secret):
        self.secret = secret

    def cipher(self, nonce):
        from cryptography.hazmat.primitives.ciphers.aead import AESCCM
        return AESCCM(hmac.new(self.secret, nonce + b"\1", hashlib.sha256).digest(), tag_length=16)

    def seal(self, nonce, content):
        return self.cipher(nonce).encrypt(bytes(12), content, None)

    def open(self, nonce, sealed):
        from cryptography.exceptions import InvalidTag
        if not 16 <= len(sealed) <= 80:
            return None
        try:
            return self.cipher(nonce).decrypt(bytes(12), sealed, None)
        except InvalidTag:
            return None


# ---- filters
class ExactSet:
    def __init__(self, capacity):
        if not 0 < capacity <= MOST_PLACES:
            raise Refused(7)
        self.capacity = self.sure = capacity
        self.held = {}

    def record(self, f):
        if f in self.held:
            return 13
        if len(self.held) == self.capacity:
            return 14
        self.held[f] = True
        return 0

    def empty(self):
        self.held = {}


class Bloom:
    sure = 0

    def __init__(self, budget, k):
        if not 1 <= k <= 64:
            raise Refused(5)
        if budget > 16_777_216:
            raise Refused(7)
        self.m, self.k, self.bits = 64 * max(1, -(-(budget // 2) // 8)), k, set()

    def record(self, f):
        step = 1 + (f >> 32) % (self.m - 1)
        places = {(f % self.m + i * step) % self.m for i in range(self.k)}
        if places <= self.bits:
            return 13
        self.bits |= places
        return 0

    def empty(self):
        self.bits = set()


def sure_count(budget):
    best, c = 0, 3
    while c * 8 <= budget // 2:
        best, c = c, 7 if c == 3 else 2 * c
    return best


class Turning:
    def __init__(self, budget, k):
        self.bloom, self.sure = Bloom(budget, k), sure_count(budget)
        self.held, self.over = {}, False

    def record(self, f):
        if self.over:
            return self.bloom.record(f)
        if f in self.held:
            return 13
        if len(self.held) < self.sure:
            self.held[f] = True
            return 0
        self.over = True
        self.bloom.empty()
        for g in list(self.held) + [f]:
            self.bloom.record(g)
        return 0

    def empty(self):
        self.held, self.over = {}, False


def hash_count(bits, hits):
    ratio = float(bits) / float(max(hits, 1)) * math.log(2)
    whole = math.floor(ratio)
    return max(1, min(whole + (ratio - whole >= 0.5), 0xFFFFFFFF))


# ---- logs
class NoneLog:
    def check(self, low, issued, lifetime):
        return 13


class TwoGenerations:
    def __init__(self, one, two):
        self.start, self.one, self.two = 0, one, two

    def check(self, low, issued, lifetime):
        if lifetime == 0:
            return 11
        expiry = issued * SECOND + lifetime
        if expiry < self.start:
            return 12
        since = expiry - self.start
        if since < lifetime:
            return self.one.record(low)
        if since < 2 * lifetime:
            return self.two.record(low)
        if since < 3 * lifetime:
            self.one, self.two = self.two, self.one
            self.start += lifetime
        else:
            self.one.empty()
            self.start = issued * SECOND
        self.two.empty()
        return self.two.record(low)


# ---- the gate
class Slip:
    def __init__(self, ip, port, destination, retried):
        self.ip, self.port, self.destination, self.retried = ip, port, destination, retried


class Gate:
    def __init__(self, scheme, log, retry, validation):
        self.scheme, self.log, self.retry_life, self.validation_life = scheme, log, retry, validation

    def write(self, content, low, high):
        nonce = low.to_bytes(8, "little") + high.to_bytes(8, "little")
        return self.scheme.seal(nonce, encode(content)) + nonce

    @staticmethod
    def dated(room, working, clock):
        if room < 81 or working < 96:
            raise Refused(1)
        if clock > LAST_CLOCK:
            raise Refused(3)
        return clock // SECOND

    def issue(self, low, high, ip, clock, room, working):
        return self.write(("validation", ip, self.dated(room, working, clock)), low, high)

    def retry(self, slip, low, high, clock, room, working):
        seconds = self.dated(room, working, clock)
        if slip.retried:
            raise Refused(8)
        return self.write(("retry", slip.ip, slip.port, slip.destination, seconds), low, high)

    def says(self, token):
        if not token:
            return 20
        if not 16 <= len(token) <= 81:
            return 21
        opened = self.scheme.open(token[-16:], token[:-16])
        if opened is None:
            return 21
        return decode(opened) or 22

    def arrive(self, token, destination, ip, port, clock, working):
        """The line of the verdict, and the slip."""
        if working < 96:
            raise Refused(1)
        if len(destination) > 20:
            raise Refused(2)
        if clock > LAST_CLOCK:
            raise Refused(3)
        here = shown(destination)
        said = self.says(token)
        if isinstance(said, int):
            return f"unvalidated {said} source none original {here}", Slip(ip, port, destination, False)
        if said[0] == "retry":
            _, asked, asked_port, original, issued = said
            if (asked, asked_port) != (ip, port):
                return "rejected 31", None
            if issued * SECOND + self.retry_life < clock:
                return "rejected 32", None
            return f"validated 0 source {here} original {shown(original)}", Slip(ip, port, destination, True)
        _, asked, issued = said
        low = int.from_bytes(token[-16:-8], "little")
        if asked != ip:
            cause = 23
        elif issued * SECOND + self.validation_life < clock:
            cause = 24
        else:
            cause = self.log.check(low, issued, self.validation_life)
        kind = "unvalidated" if cause else "validated"
        return f"{kind} {cause} source none original {here}", Slip(ip, port, destination, False)


# ---- the stores
class NoneStore:
    @staticmethod
    def test(name, token=b"", room=512):
        if room < 512:
            raise Refused(1)
        if len(name) > 255 or len(token) > 512:
            raise Refused(6)

    def insert(self, name, token):
        self.test(name, token)

    def take(self, name, room):
        self.test(name, room=room)


class Cache(NoneStore):
    given = 0

    def __init__(self, names, tokens):
        if names > 1024 or tokens > 16:
            raise Refused(7)
        self.names, self.tokens, self.entries = names, tokens, {}

    def insert(self, name, token):
        self.test(name, token)
        if not self.names or not self.tokens:
            return
        held = self.entries.pop(name, [])
        if not held and len(self.entries) == self.names:
            del self.entries[next(iter(self.entries))]
        if token not in held:
            held = held[len(held) == self.tokens:] + [token]
        self.entries[name] = held

    def take(self, name, room):
        self.test(name, room=room)
        held = self.entries.pop(name, [])
        if not held:
            return None
        token = held.pop(self.given)
        if held:
            self.entries[name] = held
        return token


class Newest(Cache):
    given = -1


# ---- paths
class Path:
    def __init__(self, validated):
        self.validated, self.counted, self.sent, self.owed = validated, 0, 0, []

    def receive(self, count):
        if not self.validated:
            self.counted = min(self.counted + count, 1 << 40)

    def grant(self, count):
        over = self.sent + sum(self.owed) + count > 3 * self.counted and not self.validated
        if count > 65_535 or len(self.owed) == 1000 or over:
            raise Refused(41)
        self.owed.append(count)

    def spend(self, count, sent):
        if sent > count:
            raise Refused(41)
        self.owed.remove(count)
        self.sent += sent


class Desk:
    """The paths and grants of a script, by its own numbers; a grant is its path and its bytes."""

    def __init__(self):
        self.paths, self.grants = {}, {}

    def at(self, number):
        if number not in self.paths:
            raise Unmade("no path")
        return self.paths[number]

    def open(self, number, accepted):
        if number in self.paths:
            raise Bad("taken")
        if accepted is None:
            raise Unmade("no accept")
        if len(self.paths) == LENT_PATHS:
            raise Refused(42)
        self.paths[number] = Path(accepted)

    def grant(self, number, name, count):
        if name in self.grants:
            raise Bad("taken")
        path = self.at(number)
        path.grant(count)
        self.grants[name] = path, count

    def spend(self, number, name, sent):
        path = self.at(number)
        if name not in self.grants:
            raise Unmade("no grant")
        owner, count = self.grants[name]
        if owner is not path:
            raise Refused(42)
        path.spend(count, sent)
        del self.grants[name]

    def close(self, number):
        if self.at(number).owed:
            raise Refused(43)
        del self.paths[number]


# ---- stateless resets
def reset_token(key, cid, working):
    """The first 16 bytes of a signature over a connection id."""
    if working < 160:
        raise Refused(1)
    if len(cid) > 20:
        raise Refused(2)
    return key(cid)[:16]


class ResetTable:
    def __init__(self, places):
        self.places, self.tokens = places, set()

    def remember(self, token):
        if token not in self.tokens and len(self.tokens) == self.places:
            raise Refused(44)
        self.tokens.add(token)

    def is_reset(self, datagram):
        return len(datagram) > 20 and datagram[-16:] in self.tokens


# ---- scripts
def shown(data):
    return data.hex() or "-"


def plain(word, bits, what):
    """A number in decimal, without a sign and without a needless zero."""
    if not re.fullmatch("0|[1-9][0-9]{0,19}", word) or int(word) >> bits:
        raise Bad(what)
    return int(word)


class Words:
    def __init__(self, line):
        self.words = line.split(" ")

    def next(self):
        if not self.words:
            raise Bad("a word is missing")
        return self.words.pop(0)

    def end(self):
        if self.words:
            raise Bad("a word too many")

    def number(self, bits, what="not a number"):
        return plain(self.next(), bits, what)

    def below(self, end, what):
        number = self.number(64, what)
        if number >= end:
            raise Bad(what)
        return number

    def path(self):
        return self.below(PATHS, "not a path")

    def grant(self):
        return self.below(GRANTS, "not a grant")

    def unhex(self, word, what="not in hex"):
        if len(word) % 2 or not all(c in "0123456789abcdef" for c in word):
            raise Bad(what)
        return bytes.fromhex(word)

    def bytes(self):
        word = self.next()
        return b"" if word == "-" else self.unhex(word)

    def array(self, size):
        data = self.bytes()
        if len(data) != size:
            raise Bad("another number of bytes")
        return data

    def name(self):
        word = self.next()
        return b"" if word == "-" else word.encode()

    def ip(self):
        word = self.next()
        if "." in word:
            parts = word.split(".")
            if len(parts) != 4:
                raise Bad("not an IP")
            return bytes(plain(part, 8, "not an IP") for part in parts)
        data = self.unhex(word, "not an IP")
        if len(data) != 16:
            raise Bad("not an IP")
        return data

    def head(self, word, misplaced, kinds):
        """The kind of a part, after the word that a line of the head begins with."""
        if self.next() != word:
            raise Bad(misplaced)
        kind = self.next()
        if kind not in kinds:
            raise Bad(f"no such {word}")
        return kind

    def skip(self, word):
        if self.words[:1] != [word]:
            return False
        del self.words[0]
        return True

    def length(self, word, usual):
        if not self.skip(word):
            return usual
        length = self.number(32)
        if length > MOST:
            raise Bad("a buffer too long")
        return length


def read_scheme(w):
    kind = w.head("scheme", "the scheme comes first", ("bench", "ccm"))
    secret = w.array(16 if kind == "bench" else 32)
    w.end()
    return lambda _: ((Bench if kind == "bench" else Ccm)(secret), f"scheme {kind}")


def read_log(w):
    kind = w.head("log", "the log comes next", ("none", "set", "bloom", "turning", "expected", "half"))
    numbers = [w.number(32) for _ in range({"none": 0, "set": 1}.get(kind, 2))]
    w.end()

    def make(_):
        if kind == "none":
            return NoneLog(), "log none"
        if kind == "set":
            return TwoGenerations(ExactSet(*numbers), ExactSet(*numbers)), f"log set sure {numbers[0]}"
        if kind == "bloom":
            return TwoGenerations(Bloom(*numbers), Bloom(*numbers)), "log bloom sure 0"
        budget, k = numbers
        told = f"log {kind}"
        if kind != "turning":
            k = hash_count(budget * (4 if kind == "half" else 8), numbers[1])
            told += f" k {k}"
        return TwoGenerations(Turning(budget, k), Turning(budget, k)), f"{told} sure {sure_count(budget)}"
    return make


def read_gate(w):
    if w.next() != "gate":
        raise Bad("the gate comes next")
    retry, validation = w.number(64), w.number(64)
    w.end()

    def make(made):
        if max(retry, validation) > LONGEST_LIFETIME:
            raise Refused(4)
        return Gate(made[0], made[1], retry, validation), "gate"
    return make


def read_store(w):
    kind = w.head("store", "the store comes next", ("none", "cache", "newest"))
    limits = [w.number(32) for _ in range(0 if kind == "none" else 2)]
    w.end()
    return lambda _: ({"none": NoneStore, "cache": Cache, "newest": Newest}[kind](*limits), f"store {kind}")


def read_reset_key(w):
    kind = w.next()
    if kind == "hmac":
        key = w.bytes()
        return lambda cid: hmac.new(key, cid, hashlib.sha256).digest()
    if kind == "bench":
        return Bench(w.array(16)).signature
    raise Bad("no such key")


class Session:
    def __init__(self, gate, store):
        self.gate, self.store, self.slip, self.desk, self.accepted = gate, store, None, Desk(), None
        self.resets = ResetTable(RESET_PLACES)

    def end(self, word):
        """Spends the slip."""
        if self.slip is None:
            return "no slip"
        if word == "accepted":
            self.accepted = self.validated
        self.slip = None
        return word

    def path_call(self, command, w):
        if command == "open":
            path = w.path()
            w.end()
            self.desk.open(path, self.accepted)
            self.accepted = None
            return "opened"
        if command == "validate":
            path = w.path()
            w.end()
            self.desk.at(path).validated = True
            return "validated"
        if command == "receive":
            path, count = w.path(), w.number(64)
            w.end()
            self.desk.at(path).receive(count)
            return "received"
        if command == "close":
            path = w.path()
            w.end()
            self.desk.close(path)
            return "closed"
        args = [w.path(), w.grant(), w.number(32)]
        w.end()
        if command == "grant":
            self.desk.grant(*args)
            return "granted"
        self.desk.spend(*args)
        return "spent"

    def run(self, w):
        command = w.next()
        if command == "issue":
            args = [w.number(64), w.number(64), w.ip(), w.number(64), w.length("room", 81), w.length("working", 96)]
            w.end()
            return f"token {self.gate.issue(*args).hex()}"
        if command == "arrive":
            args = [w.bytes(), w.bytes(), w.ip(), w.number(16, "not a port"), w.number(64), w.length("working", 96)]
            w.end()
            self.slip = None
            line, self.slip = self.gate.arrive(*args)
            self.validated = line.startswith("validated ")
            return line
        if command == "retry":
            args = [w.number(64), w.number(64), w.number(64), w.length("room", 81), w.length("working", 96)]
            w.end()
            if self.slip is None:
                return "no slip"
            token = self.gate.retry(self.slip, *args)
            self.slip = None
            return f"token {token.hex()}"
        if command == "insert":
            args = [w.name(), w.bytes()]
            w.end()
            self.store.insert(*args)
            return "stored"
        if command == "take":
            args = [w.name(), w.length("room", 512)]
            w.end()
            token = self.store.take(*args)
            return "none" if token is None else f"taken {shown(token)}"
        if command == "reset":
            args = [read_reset_key(w), w.bytes(), w.length("working", 160)]
            w.end()
            return f"reset {reset_token(*args).hex()}"
        if command == "remember":
            token = w.array(16)
            w.end()
            self.resets.remember(token)
            return "remembered"
        if command == "datagram":
            datagram = w.bytes()
            w.end()
            return "a reset" if self.resets.is_reset(datagram) else "no reset"
        if command == "k":
            bits = 4 if w.skip("half") else 8
            budget, hits = w.number(32), w.number(32)
            w.end()
            return f"k {hash_count(budget * bits, hits)}"
        if command in ("open", "validate", "receive", "grant", "spend", "close"):
            return self.path_call(command, w)
        ends = {"accept": "accepted", "refuse": "refused slip", "ignore": "ignored"}
        if command not in ends:
            raise Bad("no such command")
        w.end()
        return self.end(ends[command])


def text_of(line):
    if len(line) > LONGEST_LINE:
        raise Bad("a line too long")
    try:
        return line.decode()
    except UnicodeDecodeError:
        raise Bad("not text") from None


def answers(lines):
    """Yields the answer to each line that gets one. Lines are bytes, without their ends."""
    heads, made, session = [read_scheme, read_log, read_gate, read_store], [], None
    for number, line in enumerate(lines, 1):
        if not line or line.startswith(b"#"):
            continue
        try:
            words = Words(text_of(line))
            if session is None:
                make = heads[len(made)](words)
                part, told = make(made)
                made.append(part)
                yield told
                if len(made) == 4:
                    session = Session(made[2], made[3])
            else:
                yield session.run(words)
        except Unmade as unmade:
            yield str(unmade)
        except Bad as bad:
            yield f"error {number} {bad}"
        except Refused as refused:
            yield f"refused {refused}"
            if session is None:
                return


def lines_of(data):
    """The lines of bytes that end in LF or CRLF; the last one may have no end."""
    for line in data:
        yield line[:-2] if line.endswith(b"\r\n") else line.removesuffix(b"\n")


if __name__ == "__main__":
    for answer in answers(lines_of(sys.stdin.buffer)):
        print(answer, flush=True)

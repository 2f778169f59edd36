#!/usr/bin/env python3
"""What link_bench must print, computed from docs/RULES.md with no code of this repository.

    python3 tools/bench_tokens.py > crates/link_bench/stdout
"""
import ipaddress
import struct

KEY = b"a key of the lab"


def encode_ip(ip):
    octets = ipaddress.ip_address(ip).packed
    return bytes([0 if len(octets) == 4 else 1]) + octets


def encode_content(payload):
    seconds = struct.pack(">Q", payload["issued"])
    if "port" not in payload:
        return b"\x01" + encode_ip(payload["ip"]) + seconds
    cid = payload["id"]
    return b"\x00" + encode_ip(payload["ip"]) + struct.pack(">H", payload["port"]) + bytes([len(cid)]) + cid + seconds


def check_bytes(nonce, content):
    return bytes((KEY[j] + nonce[j] + sum(content[j::16])) % 256 for j in range(16))


def token_of(content, low, high):
    nonce = struct.pack("<QQ", low, high)
    return content + check_bytes(nonce, content) + nonce


def opens(token):
    sealed, nonce = token[:-16], token[-16:]
    return sealed[-16:] == check_bytes(nonce, sealed[:-16])


def shown(payload):
    ip = ipaddress.ip_address(payload["ip"])
    address = str(ip) if ip.version == 4 else ip.packed.hex()
    if "port" not in payload:
        return f"validation {address} issued {payload['issued']}"
    return f"retry {address} port {payload['port']} id {payload['id'].hex()} issued {payload['issued']}"


def there_and_back(payload, low, high):
    content = encode_content(payload)
    token = bytearray(token_of(content, low, high))
    print(f"content {content.hex()}")
    print(f"token {token.hex()} of {len(token)} bytes")
    assert opens(token)
    print(f"says {shown(payload)} under low half {low}")
    token[3] ^= 1
    assert not opens(token)
    print("with byte 3 damaged:")
    print("unvalidated 21")


there_and_back({"ip": "192.0.2.7", "issued": 1000}, 7, 9)
there_and_back({"ip": "192.0.2.7", "port": 4433, "id": b"\xaa\xbb", "issued": 1}, 8, 9)
there_and_back({"ip": "2001:db8::7", "port": 4433, "id": b"twenty bytes of name", "issued": 1000}, 9, 9)


# The log over four periods, in whole seconds: two generations, each a set of at most 4 low halves.
LIFETIME = 10
start, one, two = 0, set(), set()


def record(held, low):
    if low in held:
        return "refused 13"
    if len(held) == 4:
        return "refused 14"
    held.add(low)
    return "accepted"


def log_answer(low, issued):
    global start, one, two
    expiry = issued + LIFETIME
    if expiry < start:
        return "refused 12"
    since = expiry - start
    if since < LIFETIME:
        return record(one, low)
    if since < 2 * LIFETIME:
        return record(two, low)
    if since < 3 * LIFETIME:
        start, one, two = start + LIFETIME, two, set()
    else:
        start, one, two = issued, set(), set()
    return record(two, low)


print("log of two sets of 4, lifetime 10 s")
for low, issued in [(7, 1000), (8, 999), (7, 1000), (9, 1010), (10, 1020), (9, 1010), (11, 1050), (10, 1020)]:
    print(f"low half {low} issued {issued}: {log_answer(low, issued)}")

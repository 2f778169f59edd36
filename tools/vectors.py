#!/usr/bin/env python3
"""Writes the vectors that the program `vectors` runs: published ones, each held to an independent implementation first,
and lists for CCM and for reset tokens that are made with one.

Independent are hashlib and hmac of Python, and AES, HKDF and AES-CCM of the package `cryptography` (OpenSSL).

    python3 tools/vectors.py > crates/vectors/stdin
"""
import hashlib
import hmac

from cryptography.hazmat.primitives import hashes
from cryptography.hazmat.primitives.ciphers import Cipher, algorithms, modes
from cryptography.hazmat.primitives.ciphers.aead import AESCCM
from cryptography.hazmat.primitives.kdf.hkdf import HKDFExpand


def word(data):
    """Bytes as the program reads them: `-` for none, COUNTxHEX for many copies of one byte."""
    if not data:
        return "-"
    if len(data) > 1000 and data == data[:1] * len(data):
        return f"{len(data)}x{data[:1].hex()}"
    return data.hex()


def line(kind, *fields):
    print(kind, *[word(f) for f in fields])


def unhex(text):
    return bytes.fromhex("".join(text.split()))


def sha256():
    print("# SHA-256: the examples of FIPS 180-2, appendix B, which FIPS 180-4 keeps: one block, two blocks, a million letters")
    for message, digest in [
        (b"abc", "ba7816bf8f01cfea414140de5dae2223b00361a396177a9cb410ff61f20015ad"),
        (b"abcdbcdecdefdefgefghfghighijhijkijkljklmklmnlmnomnopnopq",
         "248d6a61d20638b8e5c026930c3e6039a33ce45964ff2167f6ecedd419db06c1"),
        (b"a" * 1000000, "cdc76e5c9914fb9281a1c7e284d73e67f1809a48a497200e046d39ccc7112cd0"),
    ]:
        assert hashlib.sha256(message).digest() == unhex(digest)
        line("sha256", message, unhex(digest))


def hmac_sha256():
    print("# HMAC-SHA-256: RFC 4231, test cases 1 to 7 (case 5 has the first 16 bytes only)")
    big = b"\xaa" * 131
    for key, data, mac in [
        (b"\x0b" * 20, b"Hi There", "b0344c61d8db38535ca8afceaf0bf12b881dc200c9833da726e9376c2e32cff7"),
        (b"Jefe", b"what do ya want for nothing?", "5bdcc146bf60754e6a042426089575c75a003f089d2739839dec58b964ec3843"),
        (b"\xaa" * 20, b"\xdd" * 50, "773ea91e36800e46854db8ebd09181a72959098b3ef8c122d9635514ced565fe"),
        (bytes(range(1, 26)), b"\xcd" * 50, "82558a389a443c0ea4cc819899f2083a85f0faa3e578f8077a2e3ff46729665b"),
        (b"\x0c" * 20, b"Test With Truncation", "a3b6167473100ee06e0c796c2955552b"),
        (big, b"Test Using Larger Than Block-Size Key - Hash Key First",
         "60e431591ee0b67f0d8a26aacbf5b77f8e0bc6213728c5140546040f0ee37f54"),
        (big, b"This is a test using a larger than block-size key and a larger than block-size data. "
         b"The key needs to be hashed before being used by the HMAC algorithm.",
         "9b09ffa71b942fcb27635fbcd5b0e944bfdc63644f0713938a7f51535c3a35e2"),
    ]:
        mac = unhex(mac)
        assert hmac.new(key, data, hashlib.sha256).digest()[:len(mac)] == mac
        line("hmac", key, data, mac)


def expand():
    print("# One step of HKDF's expansion: RFC 5869, test cases A.1 to A.3, PRK, info and the first 32 bytes of OKM")
    for prk, info, okm in [
        ("077709362c2e32df0ddc3f0dc47bba6390b6c73bb50f9c3122ec844ad7c2b3e5", "f0f1f2f3f4f5f6f7f8f9",
         "3cb25f25faacd57a90434f64d0362f2a2d2d0a90cf1a5a4c5db02d56ecc4c5bf"),
        ("06a6b88c5853361a06104c9ceb35b45cef760014904671014a193f40c15fc244", bytes(range(0xb0, 0x100)).hex(),
         "b11e398dc80327a1c8e7f78c596a49344f012eda2d4efad8a050cc4c19afa97c"),
        ("19ef24a32c717b167f33a91d6f648bdf96596776afdb6377ac434c1c293ccb04", "",
         "8da4e775a563c18f715f802a063c5a31b8a11f5c5ee1879ec3454e5f3c738d2d"),
    ]:
        prk, info, okm = unhex(prk), unhex(info), unhex(okm)
        assert HKDFExpand(hashes.SHA256(), 32, info).derive(prk) == okm
        line("expand", prk, info, okm)


def aes256():
    print("# AES-256: FIPS 197, appendix C.3; then the four blocks of SP 800-38A, appendix F.1.5")
    key = unhex("603deb1015ca71be2b73aef0857d7781 1f352c073b6108d72d9810a30914dff4")
    for k, block, out in [
        (bytes(range(32)), "00112233445566778899aabbccddeeff", "8ea2b7ca516745bfeafc49904b496089"),
        (key, "6bc1bee22e409f96e93d7e117393172a", "f3eed1bdb5d2a03c064b5a7e3db181f8"),
        (key, "ae2d8a571e03ac9c9eb76fac45af8e51", "591ccb10d410ed26dc5ba74a31362870"),
        (key, "30c81c46a35ce411e5fbc1191a0a52ef", "b6ed21b99ca6f4f9f153e7b1beafed1d"),
        (key, "f69f2445df4f9b17ad2b417be66c3710", "23304b7a39f9f3ff067d8d8f9e24ecc7"),
    ]:
        block, out = unhex(block), unhex(out)
        enc = Cipher(algorithms.AES(k), modes.ECB()).encryptor()
        assert enc.update(block) + enc.finalize() == out
        line("aes256", k, block, out)


def ccm():
    print("# CCM under a derived key: secret, nonce, content, sealed bytes, for each length from 0 to 64; made with HKDFExpand")
    print("# and AESCCM of Python's cryptography from bytes that SHA-256 makes of a label and the length")
    for n in range(65):
        def drawn(label, size):
            return (hashlib.sha256(f"{label} {n}".encode()).digest() + hashlib.sha256(f"{label} {n} more".encode()).digest())[:size]
        secret, nonce, content = drawn("secret", 32), drawn("nonce", 16), drawn("content", n)
        key = HKDFExpand(hashes.SHA256(), 32, nonce).derive(secret)
        assert key == hmac.new(secret, nonce + b"\x01", hashlib.sha256).digest()
        line("ccm", secret, nonce, content, AESCCM(key, tag_length=16).encrypt(bytes(12), content, None))


def reset():
    print("# Reset tokens: the key's kind, key, connection id, token, for each length of an id from 0 to 20; made with Python's hmac and")
    print("# with plain sums from bytes that SHA-256 makes of a label and the length")
    for n in range(21):
        def drawn(label, size):
            return hashlib.sha256(f"reset {label} {n}".encode()).digest()[:size]
        secret, key, cid = drawn("secret", 32), drawn("key", 16), drawn("id", n)
        line("reset hmac", secret, cid, hmac.new(secret, cid, hashlib.sha256).digest()[:16])
        line("reset bench", key, cid, bytes((key[j] + sum(cid[j::16])) % 256 for j in range(16)))


print("# Made by tools/vectors.py.")
for group in (sha256, hmac_sha256, expand, aes256, ccm, reset):
    group()

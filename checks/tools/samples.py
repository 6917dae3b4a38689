"""Samples with their protection, and their decryption under `cenc` and `cbcs` after ISO/IEC 23001-7, written apart from the proved one."""
import functools
from typing import NamedTuple, Optional

import aes


class Protection(NamedTuple):
    scheme: str
    kid: bytes
    iv: bytes
    crypt: int
    skip: int
    subs: tuple  # pairs of clear and protected bytes; none: the whole sample is protected


class Sample(NamedTuple):
    data: bytes
    protection: Optional[Protection]


def protected_parts(sample):
    """The protected part of each subsample: where it begins and where it ends."""
    place = 0
    for clear, protected in sample.protection.subs or ((0, len(sample.data)),):
        yield place + clear, place + clear + protected
        place += clear + protected


def counter_block(iv, n):
    """The n-th block whose cipher is key stream: the first 8 bytes of the IV stay, the rest counts without carry into them."""
    start = int.from_bytes(iv[8:], "big")
    return iv[:8] + ((start + n) % (1 << 64)).to_bytes(8, "big")


def exclusive_or(a, b):
    return (int.from_bytes(a, "big") ^ int.from_bytes(b, "big")).to_bytes(len(a), "big")


def open_counted(sample, key):
    """One key stream over the protected bytes of the whole sample."""
    parts = list(protected_parts(sample))
    length = sum(end - start for start, end in parts)
    stream = b"".join(aes.encrypt_block(key, counter_block(sample.protection.iv, n)) for n in range((length + 15) // 16))
    clear = bytearray(sample.data)
    used = 0
    for start, end in parts:
        clear[start:end] = exclusive_or(clear[start:end], stream[used : used + end - start])
        used += end - start
    return bytes(clear)


def open_chained(sample, key):
    """A chain of its own in each subsample, over those blocks that the pattern encrypts."""
    clear = bytearray(sample.data)
    _, _, iv, crypt, skip, _ = sample.protection
    for start, end in protected_parts(sample):
        before = iv
        for q in range((end - start) // 16):
            if skip == 0 or q % (crypt + skip) < crypt:
                place = start + 16 * q
                block = sample.data[place : place + 16]
                clear[place : place + 16] = exclusive_or(aes.decrypt_block(key, block), before)
                before = block
    return bytes(clear)


@functools.lru_cache(maxsize=1 << 16)
def open_sample(sample, key):
    """The decryption of a sample; a clear sample is its data."""
    if sample.protection is None:
        return sample.data
    return (open_counted if sample.protection.scheme == "cenc" else open_chained)(sample, key)

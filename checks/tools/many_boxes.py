"""A script with most kinds of lines, and a file with most kinds of boxes for it."""
import random

from key_texts import base64url, json_text
from movie_writer import UNPROTECTED, Part, Protection, Sample, Track, fragment, movie, pssh, sbgp, sgpd

# Two tracks, one of each scheme, with groups of the movie and of fragments, IVs and subsamples by senc, by saiz and saio, and constant
# ones. What is protected is random bytes.

RANDOM = random.Random(1)
A, B, C = (bytes(range(first, first + 16)) for first in (0x00, 0xA0, 0xC0))
KEYS = {kid: RANDOM.randbytes(16) for kid in (A, B, C)}


def sample(size, iv_size=0, *pairs):
    return Sample(RANDOM.randbytes(size), RANDOM.randbytes(iv_size), pairs)


def video():
    return [sample(100, 8, (20, 80)), sample(64, 8, (0, 16), (8, 40)), sample(50, 8, (50, 0))]


def many_boxes():
    constant = Protection(B, 0, RANDOM.randbytes(16), 1, 9)
    tracks = [
        Track(1, False, b"avc1", b"cenc", Protection(A, 8), (Protection(B, 8).fields(),)),
        Track(2, True, b"mp4a", b"cbcs", constant),
    ]
    own = Protection(C, 16, b"", 1, 9).fields()
    return b"".join([
        movie(tracks, pssh(A, B)),
        fragment(1, [Part(1, video()), Part(2, [sample(200), sample(160)])], pssh(C)),
        fragment(2, [Part(1, video(), True, (sbgp((2, 1)),)), Part(2, [sample(200, 16), sample(160, 16)], False, (sbgp((2, 0x10001)), sgpd(own)))]),
        fragment(3, [Part(1, [sample(70), *video()], False, (sgpd(UNPROTECTED), sbgp((1, 0x10001)))), Part(2, [sample(0), sample(15)])]),
    ])


def update(label, *kids, **members):
    keys = [{"kty": "oct", "kid": base64url(kid), "k": base64url(KEYS[kid])} for kid in kids]
    return f"0 update {label} text:" + json_text({"keys": keys, "type": "temporary", **members})


def many_lines():
    access = '0 access org.w3.clearkey text:[{"videoCapabilities":[{"contentType":"video/mp4; codecs=\\"avc1.42E01E\\""}]}]'
    asked = "0 request b keyids text:" + json_text({"kids": [base64url(C)]})
    lines = [
        "EMES 1", access, "0 certificate hex:00", "0 create a temporary", f"0 request a cenc hex:{pssh(A, B).hex()}", "0 settle",
        "0 create b temporary", asked, update("a", A, B), "0 feed", "0 settle", "0 feed", update("b", C, **{"from": 100}), "0 settle",
        "0 clock 100", "0 settle", "0 feed", "0 close nobody", "0 update a text:x", "0 settle", "0 remove a", "0 evict b", "0 settle",
        "0 create c temporary", "0 close c",
    ]
    return "".join(f"{it}\n" for it in lines).encode()

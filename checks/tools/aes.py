"""AES-128 after FIPS 197, by tables of columns, written apart from the proved one."""
import functools
import struct


def times(a, b):
    """The product of two bytes in GF(2^8)."""
    product = 0
    while b:
        if b & 1:
            product ^= a
        a = (a << 1) ^ (0x11B if a & 0x80 else 0)
        b >>= 1
    return product


def s_box():
    """The substitution of each byte: its inverse in the field, then the affine map."""
    box = []
    for x in range(256):
        inverse = next((y for y in range(256) if times(x, y) == 1), 0)
        turned = [((inverse << n) | (inverse >> (8 - n))) & 0xFF for n in range(5)]
        box.append(0x63 ^ functools.reduce(lambda a, b: a ^ b, turned))
    return box


S = s_box()
INVERSE_S = [S.index(x) for x in range(256)]


def columns(box, factors):
    """Four tables: the column that a byte gives in its row, the row's table being that of the first row turned by a byte."""
    first = [int.from_bytes(bytes(times(box[x], f) for f in factors), "big") for x in range(256)]
    return [[((w >> (8 * row)) | (w << (32 - 8 * row))) & 0xFFFFFFFF for w in first] for row in range(4)]


ENCRYPTION = columns(S, (2, 1, 1, 3))
DECRYPTION = columns(INVERSE_S, (14, 9, 13, 11))
UNMIXED = columns(range(256), (14, 9, 13, 11))


def joined(tables, a, b, c, d):
    """The column that four bytes give, each of another column's row."""
    return tables[0][a >> 24] ^ tables[1][b >> 16 & 255] ^ tables[2][c >> 8 & 255] ^ tables[3][d & 255]


@functools.lru_cache(maxsize=256)
def round_keys(key):
    """The 44 words of the key schedule."""
    words, factor = list(struct.unpack(">4I", key)), 1
    for i in range(4, 44):
        word = words[i - 1]
        if i % 4 == 0:
            word = ((word << 8) | (word >> 24)) & 0xFFFFFFFF
            word = S[word >> 24] << 24 | S[word >> 16 & 255] << 16 | S[word >> 8 & 255] << 8 | S[word & 255]
            word ^= factor << 24
            factor = times(factor, 2)
        words.append(words[i - 4] ^ word)
    return words


@functools.lru_cache(maxsize=256)
def inverse_keys(key):
    """The words for the inverse cipher: the rounds from the last, each of the middle ones unmixed, with the columns in the order 0, 3, 2, 1."""
    words, turned = round_keys(key), []
    for r in range(10, -1, -1):
        for i in (0, 3, 2, 1):
            word = words[4 * r + i]
            turned.append(joined(UNMIXED, word, word, word, word) if 0 < r < 10 else word)
    return turned


def ten_rounds(a, b, c, d, words, tables, box):
    """The rounds over four columns. A row r of a column comes from the column r further on."""
    t0, t1, t2, t3 = tables
    a, b, c, d = a ^ words[0], b ^ words[1], c ^ words[2], d ^ words[3]
    for i in range(4, 40, 4):
        a, b, c, d = (
            t0[a >> 24] ^ t1[b >> 16 & 255] ^ t2[c >> 8 & 255] ^ t3[d & 255] ^ words[i],
            t0[b >> 24] ^ t1[c >> 16 & 255] ^ t2[d >> 8 & 255] ^ t3[a & 255] ^ words[i + 1],
            t0[c >> 24] ^ t1[d >> 16 & 255] ^ t2[a >> 8 & 255] ^ t3[b & 255] ^ words[i + 2],
            t0[d >> 24] ^ t1[a >> 16 & 255] ^ t2[b >> 8 & 255] ^ t3[c & 255] ^ words[i + 3],
        )
    return (
        (box[a >> 24] << 24 | box[b >> 16 & 255] << 16 | box[c >> 8 & 255] << 8 | box[d & 255]) ^ words[40],
        (box[b >> 24] << 24 | box[c >> 16 & 255] << 16 | box[d >> 8 & 255] << 8 | box[a & 255]) ^ words[41],
        (box[c >> 24] << 24 | box[d >> 16 & 255] << 16 | box[a >> 8 & 255] << 8 | box[b & 255]) ^ words[42],
        (box[d >> 24] << 24 | box[a >> 16 & 255] << 16 | box[b >> 8 & 255] << 8 | box[c & 255]) ^ words[43],
    )


def encrypt_block(key, block):
    return struct.pack(">4I", *ten_rounds(*struct.unpack(">4I", block), round_keys(key), ENCRYPTION, S))


def decrypt_block(key, block):
    """The inverse shifts rows the other way: the columns go in and come out in the order 0, 3, 2, 1."""
    a, b, c, d = struct.unpack(">4I", block)
    a, d, c, b = ten_rounds(a, d, c, b, inverse_keys(key), DECRYPTION, INVERSE_S)
    return struct.pack(">4I", a, b, c, d)

"""Writes fragmented MP4 files with the protection of ISO/IEC 23001-7. Samples are written as they are given: nothing is encrypted here."""
import struct
from typing import NamedTuple

from box_writer import box, full, numbers

MATRIX = numbers(0x10000, 0, 0, 0, 0x10000, 0, 0, 0, 0x40000000)
COMMON_SYSTEM = bytes.fromhex("1077efecc0b24d02ace33c1e52e2fb4b")


class Protection(NamedTuple):
    """What a tenc or a seig group says. With an IV size of 0 the constant IV is that of each sample."""
    kid: bytes
    iv_size: int
    constant_iv: bytes = b""
    crypt: int = 0
    skip: int = 0

    def fields(self):
        constant = b"" if self.iv_size else bytes([len(self.constant_iv)]) + self.constant_iv
        return bytes([0, self.crypt << 4 | self.skip, 1, self.iv_size]) + self.kid + constant


UNPROTECTED = bytes(20)  # the fields of a group whose samples are clear


class Track(NamedTuple):
    id: int
    is_audio: bool
    format: bytes  # that of the sample entry where it is clear
    scheme: bytes = b""  # cenc, cbcs; empty: the track is clear
    protection: Protection = None
    groups: tuple = ()  # the fields of each group of the movie


class Sample(NamedTuple):
    data: bytes
    iv: bytes = b""
    pairs: tuple = ()  # of clear and protected bytes

    def auxiliary(self, has_pairs):
        pairs = [struct.pack(">HI", clear, protected) for clear, protected in self.pairs]
        return self.iv + (struct.pack(">H", len(pairs)) + b"".join(pairs) if has_pairs else b"")


class Part(NamedTuple):
    """The samples of a track in a fragment. Their IVs and pairs stand in a senc, or behind the samples, where saiz and saio lead to them."""
    track: int
    samples: list
    has_offsets: bool = False
    boxes: tuple = ()
    first: int = 0  # how many samples the track has before these; each takes one unit of time

    def auxiliary(self):
        """That of each sample. In a senc either all have pairs, which may be none, or no sample has."""
        has_pairs = any(it.pairs for it in self.samples)
        return [it.auxiliary(bool(it.pairs) if self.has_offsets else has_pairs) for it in self.samples]

    def data(self):
        return b"".join(it.data for it in self.samples) + (b"".join(self.auxiliary()) if self.has_offsets else b"")


def pssh(*kids):
    return full(b"pssh", 1 << 24, COMMON_SYSTEM, numbers(len(kids)), *kids, numbers(0))


def sgpd(*groups):
    """Descriptions of seig groups, each by its fields."""
    described = b"".join(numbers(len(it)) + it for it in groups)
    return full(b"sgpd", 1 << 24, b"seig", numbers(0, len(groups)), described)


def sbgp(*runs):
    """Which group each sample is of, by pairs of a count and an index."""
    return full(b"sbgp", 0, b"seig", numbers(len(runs)), *(numbers(*it) for it in runs))


def sample_entry(track):
    if track.is_audio:
        head = bytes(7) + b"\1" + bytes(8) + struct.pack(">HHHHI", 2, 16, 0, 0, 48000 << 16)
    else:
        head = bytes(7) + b"\1" + bytes(16) + struct.pack(">HHIIIH", 640, 360, 0x480000, 0x480000, 0, 1) + bytes(32) + b"\0\x18\xff\xff"
    if not track.scheme:
        return box(track.format, head)
    version = 1 if track.scheme == b"cbcs" else 0
    tenc = full(b"tenc", version << 24, track.protection.fields())
    sinf = box(b"sinf", box(b"frma", track.format), full(b"schm", 0, track.scheme, numbers(0x10000)), box(b"schi", tenc))
    return box(b"enca" if track.is_audio else b"encv", head, sinf)


def trak(track):
    tables = [full(b"stts", 0, numbers(0)), full(b"stsc", 0, numbers(0)), full(b"stsz", 0, numbers(0, 0)), full(b"stco", 0, numbers(0))]
    groups = [sgpd(*track.groups)] if track.groups else []
    stbl = box(b"stbl", full(b"stsd", 0, numbers(1), sample_entry(track)), *tables, *groups)
    header = full(b"smhd", 0, numbers(0)) if track.is_audio else full(b"vmhd", 1, bytes(8))
    dinf = box(b"dinf", full(b"dref", 0, numbers(1), full(b"url ", 1)))
    handler = full(b"hdlr", 0, numbers(0), b"soun" if track.is_audio else b"vide", bytes(13))
    mdhd = full(b"mdhd", 0, numbers(0, 0, 1000, 0, 0x55C40000))
    tkhd = full(b"tkhd", 3, numbers(0, 0, track.id, 0, 0), bytes(16), MATRIX, numbers(640 << 16, 360 << 16))
    return box(b"trak", tkhd, box(b"mdia", mdhd, handler, box(b"minf", header, dinf, stbl)))


def movie(tracks, *more):
    """The initialization segment."""
    mvhd = full(b"mvhd", 0, numbers(0, 0, 1000, 0, 0x10000, 0x1000000, 0, 0), MATRIX, bytes(24), numbers(len(tracks) + 1))
    trexes = [full(b"trex", 0, numbers(it.id, 1, 1, 0, 0)) for it in tracks]
    return box(b"ftyp", b"iso6", numbers(0), b"iso6") + box(b"moov", mvhd, *map(trak, tracks), box(b"mvex", *trexes), *more)


def track_fragment(part, place):
    """The traf of a part whose data begins at a place, counted from the moof."""
    sizes, auxiliary = [len(it.data) for it in part.samples], part.auxiliary()
    time = full(b"tfdt", 0, numbers(part.first))
    boxes = [full(b"tfhd", 0x20000, numbers(part.track)), time, full(b"trun", 0x201, numbers(len(sizes), place, *sizes)), *part.boxes]
    if part.has_offsets:
        boxes.append(full(b"saiz", 0, b"\0", numbers(len(sizes)), bytes(map(len, auxiliary))))
        boxes.append(full(b"saio", 0, numbers(1, place + sum(sizes))))
    elif any(auxiliary):
        has_pairs = any(it.pairs for it in part.samples)
        boxes.append(full(b"senc", 2 if has_pairs else 0, numbers(len(sizes)), *auxiliary))
    return box(b"traf", *boxes)


def fragment(number, parts, *more):
    """A movie fragment with its data behind it."""
    data = [part.data() for part in parts]

    def moof(place):
        trafs = []
        for part, its_data in zip(parts, data):
            trafs.append(track_fragment(part, place))
            place += len(its_data)
        return box(b"moof", full(b"mfhd", 0, numbers(number)), *trafs, *more)

    return moof(len(moof(0)) + 8) + box(b"mdat", *data)

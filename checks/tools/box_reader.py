"""Prints what the moov and moof boxes of a fragmented MP4 file say, as the program box_text does; and reads them for media_reader.

A reader written apart from the proved one, after ISO/IEC 14496-12. It refuses nothing: a broken header ends the reading.
"""
import struct
import sys

BYTES_BEFORE_CHILDREN = {"encv": 78, "enca": 28}


class Box:
    """A box: its type, the place of its first byte, the place of its body, and where it ends."""

    def __init__(self, kind, place, body, end):
        self.kind, self.place, self.body, self.end = kind, place, body, end


class BrokenHeader(Exception):
    pass


def u32(data, place):
    return struct.unpack_from(">I", data, place)[0]


def u64(data, place):
    return struct.unpack_from(">Q", data, place)[0]


def boxes(data, place, end, is_top=False):
    """Gives the boxes between two places."""
    while place < end:
        if end - place < 8:
            raise BrokenHeader("Short", place)
        size, header = u32(data, place), 8
        if size == 1:
            size, header = u64(data, place + 8), 16
        elif size == 0 and is_top:
            size = end - place
        if size < header:
            raise BrokenHeader("SizeTooSmall", place)
        if size > end - place:
            raise BrokenHeader("PastEnd", place)
        yield Box(data[place + 4 : place + 8].decode("latin-1"), place, place + header, place + size)
        place += size


def all_of(data, box, kind):
    return [child for child in boxes(data, box.body, box.end) if child.kind == kind]


def first_of(data, box, kind):
    return next(iter(all_of(data, box, kind)), None)


def option(value):
    return "None" if value is None else f"Some({value})"


def print_span(box):
    print(f"  {box.kind} {box.place} {box.body} {box.end - box.body}")


def default_values(data, moov):
    """Gives the place and the values of the first trex of each track."""
    found = {}
    for mvex in all_of(data, moov, "mvex"):
        for trex in all_of(data, mvex, "trex"):
            track, *values = struct.unpack_from(">5I", data, trex.body + 4)
            found.setdefault(track, (trex.place, *values))
    return found


def track_id(data, trak):
    tkhd = first_of(data, trak, "tkhd")
    return u32(data, tkhd.body + 4 + (8 if data[tkhd.body] == 0 else 16))


def sample_table(data, trak):
    """Gives the stbl box of a track."""
    box = trak
    for kind in ("mdia", "minf", "stbl"):
        box = first_of(data, box, kind)
    return box


def sample_entries(data, stbl):
    """Gives each sample entry with its sinf boxes."""
    stsd = first_of(data, stbl, "stsd")
    for entry in boxes(data, stsd.body + 8, stsd.end):
        children = boxes(data, entry.body + BYTES_BEFORE_CHILDREN[entry.kind], entry.end) if entry.kind in BYTES_BEFORE_CHILDREN else []
        yield entry, [child for child in children if child.kind == "sinf"]


def print_entries(data, stbl):
    for entry, sinfs in sample_entries(data, stbl):
        print(f" entry {entry.place}")
        for sinf in sinfs:
            print_span(sinf)


def print_movie(data, moov):
    print(f"movie {moov.place}")
    for pssh in all_of(data, moov, "pssh"):
        print_span(pssh)
    defaults = default_values(data, moov)
    for trak in all_of(data, moov, "trak"):
        track = track_id(data, trak)
        print(f" track {trak.place} {track}")
        stbl = sample_table(data, trak)
        print_entries(data, stbl)
        for sgpd in all_of(data, stbl, "sgpd"):
            print_span(sgpd)
        print(" ".join([" trex", *map(str, defaults[track])]) if track in defaults else " no trex")


def flagged(data, place, flags, widths):
    """Gives the values whose flags are set, None for the others, and the place behind them."""
    values = []
    for flag, width in widths:
        if not flags & flag:
            values.append(None)
            continue
        values.append(u64(data, place) if width == 8 else u32(data, place))
        place += width
    return values, place


def header_of(data, tfhd):
    """Gives the track id, the flags and the values of a tfhd: base data offset, description index, default duration, size and flags."""
    flags = u32(data, tfhd.body) & 0xFFFFFF
    return u32(data, tfhd.body + 4), flags, flagged(data, tfhd.body + 8, flags, [(1, 8), (2, 4), (8, 4), (16, 4), (32, 4)])[0]


def run_of(data, trun):
    """Gives the count, the data offset, the first flags and the items of a trun: duration, size, flags and composition offset each."""
    flags, count, place = u32(data, trun.body) & 0xFFFFFF, u32(data, trun.body + 4), trun.body + 8
    offset = None
    if flags & 1:
        offset = struct.unpack_from(">i", data, place)[0]
        place += 4
    (first_flags,), place = flagged(data, place, flags, [(4, 4)])
    items = []
    if flags & 0xF00:
        for _ in range(count):
            values, place = flagged(data, place, flags, [(0x100, 4), (0x200, 4), (0x400, 4), (0x800, 4)])
            items.append(values)
    return count, offset, first_flags, items


def print_run(data, trun):
    count, offset, first_flags, items = run_of(data, trun)
    print(f" trun {trun.place} {count} {option(offset)} {option(first_flags)}")
    for values in items:
        print(" ".join(["  item", *map(option, values)]))


def print_fragment(data, moof):
    print(f"moof {moof.place}")
    for pssh in all_of(data, moof, "pssh"):
        print_span(pssh)
    for traf in all_of(data, moof, "traf"):
        tfhd = first_of(data, traf, "tfhd")
        track, flags, values = header_of(data, tfhd)
        print(f" traf {traf.place} tfhd {tfhd.place} {track} {flags} {' '.join(map(option, values))}")
        for trun in all_of(data, traf, "trun"):
            print_run(data, trun)
        for kind in ("senc", "saiz", "saio", "sgpd", "sbgp"):
            for box in all_of(data, traf, kind):
                print_span(box)


def main(path):
    with open(path, "rb") as file:
        data = file.read()
    try:
        for box in boxes(data, 0, len(data), is_top=True):
            if box.kind == "moov":
                print_movie(data, box)
            if box.kind == "moof":
                print_fragment(data, box)
    except BrokenHeader as broken:
        kind, place = broken.args
        print(f"header {kind} {{ place: {place} }}")


if __name__ == "__main__":
    main(sys.argv[1])

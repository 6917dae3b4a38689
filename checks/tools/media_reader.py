"""Reads media files: sample lists, and fragmented MP4 in the profile of docs/PROFILE.md, written apart from the proved reader.

It is given files that a play has taken, and refuses nothing by name: a file outside the grammar ends in an exception.
"""
from typing import NamedTuple

import box_reader
from samples import Protection, Sample


class Fragment(NamedTuple):
    inits: list  # pairs of a type, `cenc` or `keyids`, and bytes
    samples: list  # pairs of a track id and a sample, those of a track in their order


class Media(NamedTuple):
    tracks: list
    fragments: list


def read_media(data):
    return read_sample_list(data) if data.startswith(b"SMPL 1\n") else read_mp4(data)


# The sample list


def hex_word(word):
    return b"" if word == "-" else bytes.fromhex(word)


def subsamples(word):
    return () if word == "-" else tuple(tuple(map(int, pair.split("+"))) for pair in word.split(","))


def read_sample(words):
    if words[0] == "clear":
        return Sample(hex_word(words[1]), None)
    scheme, kid, iv = words[:3]
    crypt, skip = map(int, words[3].split(":")) if scheme == "cbcs" else (0, 0)
    subs, data = words[-2:]
    return Sample(hex_word(data), Protection(scheme, bytes.fromhex(kid), bytes.fromhex(iv), crypt, skip, subsamples(subs)))


def read_sample_list(data):
    media = Media([], [])
    for line in data.decode().split("\n")[1:]:
        verb, *words = line.split(" ")
        if verb == "track":
            media.tracks.append(int(words[0]))
        elif verb == "fragment":
            media.fragments.append(Fragment([], []))
        elif verb == "init":
            media.fragments[-1].inits.append((words[0], hex_word(words[1])))
        elif verb == "sample":
            media.fragments[-1].samples.append((int(words[0]), read_sample(words[1:])))
    return media


# Fragmented MP4


class Defaults(NamedTuple):
    """What a tenc or a group description says of a sample."""
    crypt: int
    skip: int
    is_protected: bool
    iv_size: int
    kid: bytes
    constant: bytes


CLEAR = Defaults(0, 0, False, 0, b"", b"")


def read_defaults(data, place, has_pattern):
    """Reads the fields behind the version and flags of a tenc, or those of a group description; gives where they end too."""
    pattern = data[place + 1] if has_pattern else 0
    is_protected, iv_size, kid = data[place + 2], data[place + 3], data[place + 4 : place + 20]
    place += 20
    constant = b""
    if is_protected and iv_size == 0:
        constant = data[place + 1 : place + 1 + data[place]]
        place += 1 + len(constant)
    return Defaults(pattern >> 4, pattern & 15, bool(is_protected), iv_size, kid, constant), place


class Entry(NamedTuple):
    """A sample entry: its scheme, none where it is clear, and its defaults."""
    scheme: str
    defaults: Defaults


def read_entry(data, sinfs):
    for sinf in sinfs:
        schm = box_reader.first_of(data, sinf, "schm")
        scheme = data[schm.body + 4 : schm.body + 8].decode("latin-1") if schm else ""
        if scheme in ("cenc", "cbcs"):
            tenc = box_reader.first_of(data, box_reader.first_of(data, sinf, "schi"), "tenc")
            return Entry(scheme, read_defaults(data, tenc.body + 4, data[tenc.body] > 0)[0])
    return Entry(None, CLEAR)


def first_of_seig(data, boxes, kind):
    """The first box of a kind whose grouping type is `seig`."""
    return next((it for it in boxes if it.kind == kind and data[it.body + 4 : it.body + 8] == b"seig"), None)


def read_groups(data, boxes):
    """The descriptions of the first sgpd of type `seig` among some boxes."""
    sgpd = first_of_seig(data, boxes, "sgpd")
    if sgpd is None:
        return []
    place, length = sgpd.body + 8, 0
    if data[sgpd.body] == 1:
        length = box_reader.u32(data, place)
        place += 4
    groups, count = [], box_reader.u32(data, place)
    place += 4
    for _ in range(count):
        size = length
        if data[sgpd.body] == 1 and length == 0:
            size = box_reader.u32(data, place)
            place += 4
        group, end = read_defaults(data, place, True)
        groups.append(group)
        place = place + size if data[sgpd.body] == 1 else end
    return groups


class Track(NamedTuple):
    entries: list
    groups: list
    default_description: int
    default_size: int


def read_movie(data, moov):
    defaults = box_reader.default_values(data, moov)
    tracks = {}
    for trak in box_reader.all_of(data, moov, "trak"):
        stbl = box_reader.sample_table(data, trak)
        entries = [read_entry(data, sinfs) for _, sinfs in box_reader.sample_entries(data, stbl)]
        track = box_reader.track_id(data, trak)
        _, description, _, size, _ = defaults.get(track, (0, 0, 0, 0, 0))
        tracks[track] = Track(entries, read_groups(data, box_reader.boxes(data, stbl.body, stbl.end)), description, size)
    return tracks


def joined_pssh(data, box):
    """The `pssh` boxes right in a box, whole, as one initialization data; none where there is no such box."""
    boxes = [data[it.place : it.end] for it in box_reader.all_of(data, box, "pssh")]
    return [("cenc", b"".join(boxes))] if boxes else []


def read_runs(data, runs, base, default_size):
    """The places of the samples of each run, as pairs of a start and an end, and the end of the last run."""
    ranges, end = [], base
    for trun in runs:
        count, offset, _, items = box_reader.run_of(data, trun)
        place = end if offset is None else base + offset
        ranges.append([])
        for i in range(count):
            size = items[i][1] if items and items[i][1] is not None else default_size
            ranges[-1].append((place, place + size))
            place += size
        end = place
    return ranges, end


def group_indices(data, boxes, count):
    sbgp = first_of_seig(data, boxes, "sbgp")
    indices = []
    if sbgp is not None:
        place = sbgp.body + (12 if data[sbgp.body] == 1 else 8)
        for i in range(box_reader.u32(data, place)):
            many, index = box_reader.u32(data, place + 4 + 8 * i), box_reader.u32(data, place + 8 + 8 * i)
            indices += [index] * min(many, count - len(indices))
    return indices + [0] * (count - len(indices))


def group_of(index, entry, own, movie):
    if index == 0:
        return entry.defaults
    return own[index - 0x10001] if index > 0x10000 else movie[index - 1]


def read_pairs(data, place):
    """A count of 16 bits and that many pairs of clear and protected bytes; gives where they end too."""
    count = int.from_bytes(data[place : place + 2], "big")
    pairs = []
    for i in range(count):
        at = place + 2 + 6 * i
        pairs.append((int.from_bytes(data[at : at + 2], "big"), box_reader.u32(data, at + 2)))
    return tuple(pairs), place + 2 + 6 * count


def from_senc(data, senc, groups):
    """IV and subsamples of each sample, by the senc."""
    has_pairs, place = box_reader.u32(data, senc.body) & 2, senc.body + 8
    for group in groups:
        size = group.iv_size if group.is_protected else 0
        iv, subs = data[place : place + size], ()
        place += size
        if has_pairs:
            subs, place = read_pairs(data, place)
        yield iv or group.constant, subs


def typed_body(data, box):
    """The type that a saiz or saio names, none where it names none, and where its other fields begin."""
    if box_reader.u32(data, box.body) & 1:
        return data[box.body + 4 : box.body + 8].decode("latin-1"), box.body + 12
    return None, box.body + 4


def used(data, boxes, kind, scheme):
    """Where the fields begin in the first saiz or saio for the scheme."""
    bodies = [typed_body(data, it) for it in boxes if it.kind == kind]
    return next(place for named, place in bodies if named in (None, scheme))


def from_saiz(data, boxes, scheme, groups, base, runs):
    """IV and subsamples of each sample, by the auxiliary data that saiz and saio lead to."""
    place = used(data, boxes, "saiz", scheme)
    default, count = data[place], box_reader.u32(data, place + 1)
    sizes = [default] * count if default else list(data[place + 5 : place + 5 + count])
    sizes += [0] * (len(groups) - count)
    place = used(data, boxes, "saio", scheme)
    # the version stands before the fields, whether a type stands between them or not
    saio = next(it for it in boxes if it.kind == "saio" and typed_body(data, it)[1] == place)
    width = 4 if data[saio.body] == 0 else 8
    offsets = [int.from_bytes(data[place + 4 + width * i : place + 4 + width * (i + 1)], "big") for i in range(box_reader.u32(data, place))]
    i, at = 0, base + offsets[0] if offsets else base
    for number, run in enumerate(runs):
        if len(offsets) > 1:
            at = base + offsets[number]
        for _ in run:
            group, end = groups[i], at + sizes[i]
            size = group.iv_size if group.is_protected else 0
            subs = read_pairs(data, at + size)[0] if group.is_protected and sizes[i] > size else ()
            yield data[at : at + size] or group.constant, subs
            i, at = i + 1, end


def read_track_fragment(data, moof, traf, movie, end_before):
    """The track id, its samples in order, and where the data of the fragment ends."""
    boxes = list(box_reader.boxes(data, traf.body, traf.end))
    id, flags, (base, description, _, size, _) = box_reader.header_of(data, box_reader.first_of(data, traf, "tfhd"))
    track = movie[id]
    if base is None:
        base = moof.place if flags & 0x20000 or end_before is None else end_before
    entry = track.entries[(track.default_description if description is None else description) - 1]
    runs, end = read_runs(data, [it for it in boxes if it.kind == "trun"], base, track.default_size if size is None else size)
    ranges = [it for run in runs for it in run]
    own = read_groups(data, boxes)
    groups = [group_of(index, entry, own, track.groups) for index in group_indices(data, boxes, len(ranges))]
    senc = next((it for it in boxes if it.kind == "senc" and box_reader.u32(data, it.body + 4)), None)
    if entry.scheme is None:
        auxiliary = [(b"", ())] * len(ranges)
    elif senc is not None:
        auxiliary = from_senc(data, senc, groups)
    elif any(it.kind == "saiz" for it in boxes):
        auxiliary = from_saiz(data, boxes, entry.scheme, groups, base, runs)
    else:
        auxiliary = [(group.constant, ()) for group in groups]
    samples = []
    for (start, stop), group, (iv, subs) in zip(ranges, groups, auxiliary, strict=True):
        protection = Protection(entry.scheme, group.kid, iv, group.crypt, group.skip, subs) if group.is_protected else None
        samples.append(Sample(data[start:stop], protection))
    return id, samples, end


def read_mp4(data):
    movie, media, inits = {}, Media([], []), []
    for box in box_reader.boxes(data, 0, len(data), is_top=True):
        if box.kind == "moov":
            movie, inits = read_movie(data, box), joined_pssh(data, box)
            media.tracks.extend(movie)
        if box.kind == "moof":
            fragment = Fragment(inits + joined_pssh(data, box), [])
            inits, end = [], None
            for traf in box_reader.all_of(data, box, "traf"):
                track, samples, end = read_track_fragment(data, box, traf, movie, end)
                fragment.samples.extend((track, it) for it in samples)
            media.fragments.append(fragment)
    return media

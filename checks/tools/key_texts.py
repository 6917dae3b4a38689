"""JSON as serde_json reads it, base64url, initialization data, licence requests and key sets, written apart from the proved readers."""
import base64
import json
import struct
from typing import NamedTuple, Optional

import box_reader
from formats_page import LIMITS

MOST_DEPTH = 127
COMMON_SYSTEM = bytes.fromhex("1077efecc0b24d02ace33c1e52e2fb4b")


class Refused(Exception):
    """A text outside its grammar, or one that names no key id where the reason says so."""


# JSON


def whole(text):
    """A number without a fraction: what does not fit 64 bits without sign is no whole number to serde_json."""
    value = int(text)
    return value if not text.startswith("-") and value < 1 << 64 else fraction(text)


def fraction(text):
    value = float(text)
    if value in (float("inf"), float("-inf")):
        raise Refused("a number past the largest one")
    return value


def no_constant(text):
    raise Refused(text)


def depth(value):
    if isinstance(value, dict):
        return 1 + max(map(depth, value.values()), default=0)
    if isinstance(value, list):
        return 1 + max(map(depth, value), default=0)
    return 0


def read_json(data):
    try:
        text = data.decode()
        value = json.loads(text, parse_int=whole, parse_float=fraction, parse_constant=no_constant)
        # a surrogate alone is no character
        json_text(value).encode()
        is_too_deep = depth(value) > MOST_DEPTH
    except (ValueError, RecursionError) as fault:
        raise Refused(str(fault)) from None
    if is_too_deep:
        raise Refused("too deep")
    return value


def json_text(value):
    return json.dumps(value, ensure_ascii=False, separators=(",", ":"))


# base64url without padding


def base64url(data):
    return base64.urlsafe_b64encode(data).rstrip(b"=").decode()


def from_base64url(text):
    """The bytes of a text. Each byte list has one spelling, so that padding and bits left over are refused."""
    if not isinstance(text, str):
        raise Refused("no text")
    try:
        data = base64.urlsafe_b64decode(text.encode("ascii") + b"=" * (-len(text) % 4))
    except ValueError as fault:
        raise Refused(str(fault)) from None
    if base64url(data) != text:
        raise Refused("another spelling")
    return data


def kid_of(text):
    kid = from_base64url(text)
    if not 1 <= len(kid) <= LIMITS["MAX_KID_BYTES"]:
        raise Refused("a key id of another length")
    return kid


# Initialization data


def kids_of_keyids(data):
    value = read_json(data)
    if not isinstance(value, dict) or not isinstance(value.get("kids"), list):
        raise Refused("no list of key ids")
    return [kid_of(it) for it in value["kids"]]


def kids_of_pssh(data):
    kids, boxes = [], list(box_reader.boxes(data, 0, len(data)))
    if not boxes:
        raise Refused("no box")
    for box in boxes:
        body = data[box.body : box.end]
        if box.kind != "pssh":
            raise Refused("a box of another type")
        place, count = 20, 0
        if body[0] > 0:
            count, place = struct.unpack_from(">I", body, 20)[0], 24
        if place + 16 * count + 4 > len(body):
            raise Refused("a box that is cut")
        if body[4:20] == COMMON_SYSTEM:
            kids += [body[place + 16 * i : place + 16 * (i + 1)] for i in range(count)]
        place += 16 * count
        if place + 4 + struct.unpack_from(">I", body, place)[0] != len(body):
            raise Refused("a box of another length")
    return kids


def kids_of(kind, data):
    """The key ids of initialization data, each once; none where it has none; refused where it is outside its grammar."""
    if len(data) > LIMITS["MAX_INIT_DATA_BYTES"]:
        raise Refused("too long")
    try:
        kids = kids_of_keyids(data) if kind == b"keyids" else kids_of_pssh(data)
    except (box_reader.BrokenHeader, struct.error, IndexError) as fault:
        raise Refused(str(fault)) from None
    return list(dict.fromkeys(kids))


def request_text(kids):
    return json_text({"kids": [base64url(it) for it in kids], "type": "temporary"})


# Key sets


class KeySet(NamedTuple):
    keys: list
    start: Optional[int]
    expires: Optional[int]


def moment_of(members, name):
    """The moment that a member says, none without it; written as digits alone."""
    moment = members.get(name, 0)
    if type(moment) is not int or not 0 <= moment <= LIMITS["MAX_MOMENT"]:
        raise Refused("no moment")
    return moment if name in members else None


def read_key_set(data):
    if len(data) > LIMITS["MAX_KEY_SET_BYTES"]:
        raise Refused("too long")
    value = read_json(data)
    if not isinstance(value, dict) or not isinstance(value.get("keys"), list) or not value["keys"]:
        raise Refused("no list of keys")
    keys = []
    for it in value["keys"]:
        if not isinstance(it, dict) or it.get("kty") != "oct":
            raise Refused("no key of octets")
        key = from_base64url(it.get("k"))
        if len(key) != 16:
            raise Refused("a key of another length")
        keys.append((kid_of(it.get("kid")), key))
    if value.get("type", "temporary") != "temporary":
        raise Refused("another type")
    return KeySet(keys, moment_of(value, "from"), moment_of(value, "expires"))

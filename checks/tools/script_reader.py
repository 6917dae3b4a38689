"""Reads a script that a play has taken: its lines with their numbers, lanes and actions."""
from typing import NamedTuple


class Line(NamedTuple):
    number: int
    lane: int
    verb: str
    words: tuple  # texts, a name or a type as bytes; data as bytes


# how many words stand between the verb and the data, and whether there is data
FORMS = {
    "access": (1, True), "create": (2, False), "request": (2, True), "update": (1, True), "close": (1, False),
    "remove": (1, False), "certificate": (0, True), "feed": (0, False), "clock": (1, False), "settle": (0, False),
    "evict": (1, False),
}
CALLS = ("access", "create", "request", "update", "close", "remove", "certificate")


def data_of(text):
    return text[5:] if text.startswith(b"text:") else bytes.fromhex(text[4:].decode())


def word_of(word):
    return b"" if word == b"-" else word


def read_script(data):
    lines = []
    for number, text in enumerate(data.split(b"\n"), 1):
        if number == 1 or not text or text.startswith(b"#"):
            continue
        lane, verb, *rest = text.split(b" ", 2)
        verb = verb.decode()
        count, has_data = FORMS[verb]
        words = rest[0].split(b" ", count if has_data else -1) if rest else []
        if len(words) != count + has_data:
            raise ValueError(f"line {number} of the script has {len(words)} words")
        before = [word_of(it) for it in words[:count]]
        lines.append(Line(number, int(lane), verb, tuple(before + [data_of(it) for it in words[count:]])))
    return lines

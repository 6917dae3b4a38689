"""Negotiation of access to the key system, by the rules of docs/FORMATS.md, written apart from the proved one."""
import re

import key_texts
from formats_page import CODECS
from key_texts import Refused

SYSTEM = b"org.w3.clearkey"
INIT_TYPES = ("cenc", "keyids")
CODEC = r"[^ ,;\"]+"
CODEC_LIST = rf"{CODEC}(?:, *{CODEC})*"


class Rejected(Exception):
    """The name with which the promise is rejected."""


def texts(value, name, absent):
    listed = value.get(name, absent)
    if not isinstance(listed, list) or not all(isinstance(it, str) for it in listed):
        raise Refused(name)
    return listed


def text(value, name):
    it = value.get(name, "")
    if not isinstance(it, str):
        raise Refused(name)
    return it


def capabilities(value, name):
    listed = value.get(name, [])
    if not isinstance(listed, list) or not all(isinstance(it, dict) for it in listed):
        raise Refused(name)
    return [{"contentType": text(it, "contentType"), "robustness": text(it, "robustness")} for it in listed]


def need(value, name):
    it = value.get(name, "optional")
    if it not in ("required", "optional", "not-allowed"):
        raise Refused(name)
    return it


def read_configs(data):
    value = key_texts.read_json(data)
    if not isinstance(value, list) or not all(isinstance(it, dict) for it in value):
        raise Refused("no list of objects")
    return [
        {
            "label": text(it, "label"),
            "initDataTypes": texts(it, "initDataTypes", []),
            "audioCapabilities": capabilities(it, "audioCapabilities"),
            "videoCapabilities": capabilities(it, "videoCapabilities"),
            "distinctiveIdentifier": need(it, "distinctiveIdentifier"),
            "persistentState": need(it, "persistentState"),
            "sessionTypes": texts(it, "sessionTypes", ["temporary"]),
        }
        for it in value
    ]


def is_supported(capability, kind):
    form = re.fullmatch(rf'{kind}/mp4 *; *codecs=(?:({CODEC_LIST})|"({CODEC_LIST})")', capability["contentType"], re.S)
    if capability["robustness"] or form is None:
        return False
    return all(codec.split(".")[0] in CODECS[kind] for codec in re.split(", *", form[1] or form[2]))


def kept(listed, fits):
    """The part of a list that fits. A list that is not empty and of which nothing fits fails."""
    fitting = [it for it in listed if fits(it)]
    return None if listed and not fitting else fitting


def supported(config):
    """What is granted of a candidate, none where it fails."""
    init_types = kept(config["initDataTypes"], lambda it: it in INIT_TYPES)
    both = config["videoCapabilities"] + config["audioCapabilities"]
    video = kept(config["videoCapabilities"], lambda it: is_supported(it, "video"))
    audio = kept(config["audioCapabilities"], lambda it: is_supported(it, "audio"))
    fails = (
        init_types is None
        or "required" in (config["distinctiveIdentifier"], config["persistentState"])
        or any(it != "temporary" for it in config["sessionTypes"])
        or not both
        or any(it["contentType"] == "" for it in both)
        or video is None
        or audio is None
    )
    if fails:
        return None
    return {
        **config,
        "initDataTypes": init_types, "audioCapabilities": audio, "videoCapabilities": video,
        "distinctiveIdentifier": "not-allowed", "persistentState": "not-allowed",
    }


def access(name, data):
    """The text of the granted configuration."""
    if not name:
        raise Rejected("TypeError")
    try:
        configs = read_configs(data)
    except Refused:
        raise Rejected("TypeError") from None
    if not configs:
        raise Rejected("TypeError")
    granted = next((it for it in map(supported, configs) if it is not None), None)
    if name != SYSTEM or granted is None:
        raise Rejected("NotSupportedError")
    return key_texts.json_text(granted)

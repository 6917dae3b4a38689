"""Writes boxes of ISO/IEC 14496-12 for media files made by hand."""
import struct


def box(kind, *parts):
    body = b"".join(parts)
    return struct.pack(">I", 8 + len(body)) + kind + body


def full(kind, flags, *parts):
    """A full box; `flags` holds its version in the upper 8 bits."""
    return box(kind, struct.pack(">I", flags), *parts)


def numbers(*values):
    return struct.pack(f">{len(values)}I", *values)

"""A format in pw-dump's JSON as the bytes of a POD, to be offered to a daemon.

Source: PipeWire's documentation, "SPA POD"; spa/pod/pod.h. Only the recorder uses it: the tools
leave PODs to pipegraph-pods.
"""
import struct

from bridge.pods import choice_of, key_of
from bridge.spa import ENUM_FORMAT, ID, INT, OBJECT_FORMAT

ARRAY, OBJECT, CHOICE = 13, 15, 19
KINDS = {"range": 1, "step": 2, "enum": 3, "flags": 4}


def pod(kind, body):
    """A POD with its padding."""
    return struct.pack("<II", len(body), kind) + body + bytes(-len(body) % 8)


def number(value, names):
    return struct.pack("<i", value) if names is None else struct.pack("<I", names[value])


def value_pod(value, names):
    """The POD of a property's value."""
    child = INT if names is None else ID
    if isinstance(value, list):
        return pod(ARRAY, struct.pack("<II", 4, child) + b"".join(number(it, names)
                                                                 for it in value))
    if isinstance(value, dict):
        kind, values = choice_of("pair", value)
        return pod(CHOICE, struct.pack("<IIII", KINDS[kind], 0, 4, child)
                   + b"".join(number(it, names) for it in values))
    return pod(child, number(value, names))


def format_pod(value):
    """The POD of a format."""
    body = struct.pack("<II", OBJECT_FORMAT, ENUM_FORMAT)
    for name, it in value.items():
        key, names = key_of("pair", name)
        body += struct.pack("<II", key, 0) + value_pod(it, names)
    return pod(OBJECT, body)

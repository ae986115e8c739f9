"""The numbers of SPA's enumerations, read from the public headers where these are installed."""
import re
from pathlib import Path

from bridge import spa

HEADERS = Path("/usr/include/spa-0.2/spa/param")
TABLES = [("format.h", "spa_media_type", "format-types.h", "SPA_MEDIA_TYPE", spa.MEDIA_TYPES),
          ("format.h", "spa_media_subtype", "format-types.h", "SPA_MEDIA_SUBTYPE",
           spa.MEDIA_SUBTYPES),
          ("audio/raw.h", "spa_audio_format", "audio/raw-types.h", "SPA_AUDIO_FORMAT",
           spa.AUDIO_FORMATS),
          ("audio/raw.h", "spa_audio_channel", "audio/raw-types.h", "SPA_AUDIO_CHANNEL",
           spa.CHANNELS),
          ("audio/iec958.h", "spa_audio_iec958_codec", "audio/iec958-types.h",
           "SPA_AUDIO_IEC958_CODEC", spa.IEC958_CODECS)]


def enumeration(text, name):
    """The constants of an enum of C, for a machine that is little-endian."""
    body = re.search(rf"enum {name} \{{(.*?)\n\}};", text, re.S)[1]
    body = re.sub(r"/\*.*?\*/", "", body, flags=re.S)
    body = re.sub(r"#if .*?#elif [^\n]*", "", body, flags=re.S).replace("#endif", "")
    found, value = {}, -1
    for item in (part.strip() for part in body.split(",")):
        if item:
            constant, _, given = (part.strip() for part in item.partition("="))
            value = value + 1 if not given else found[given] if given in found else int(given, 0)
            found[constant] = value
    return found


def spelled(text, prefix):
    """The names that pw-dump prints for the constants."""
    text = re.sub(r"#if .*?#elif [^\n]*", "", text, flags=re.S)
    return re.findall(rf"\{{ ({prefix}_\w+),\s*SPA_TYPE_\w+,\s*\w+ \"(\w[\w-]*)\"", text)


def numbers_are_the_headers(asking):
    """Each name that the headers give has the number that they give."""
    if not HEADERS.is_dir():
        print("numbers: libspa-0.2-dev is not installed, so they were not compared")
        return
    for header, name, types, prefix, table in TABLES:
        constants = enumeration((HEADERS / header).read_text(), name)
        names = spelled((HEADERS / types).read_text(), prefix)
        asking.same(f"{name}: names", True, len(names) > 5)
        for constant, short in names:
            asking.same(f"{name} {short}", constants[constant], table.get(short))
    keys = enumeration((HEADERS / "format.h").read_text(), "spa_format")
    for name, (key, _) in spa.KEYS.items():
        prefix = "" if name.startswith("media") else "AUDIO_"
        asking.same(f"spa_format {name}", keys[f"SPA_FORMAT_{prefix}{name}"], key)


TESTS = [numbers_are_the_headers]

"""The numbers of SPA's enumerations that a format of audio has, by the names that pw-dump prints.

Source: the public headers of SPA, Debian's libspa-0.2-dev 0.3.65: spa/param/format.h,
spa/param/audio/raw.h and spa/param/audio/iec958.h for the numbers, and the *-types.h beside them
for the names, whole for audio/raw. `test` compares them with the headers where these are installed.
"""

OBJECT_FORMAT = 0x40003
ENUM_FORMAT, FORMAT = 3, 4
ID, INT = 3, 4

# spa/param/format.h, spa_media_type
MEDIA_TYPES = {
    "unknown": 0, "audio": 1, "video": 2, "image": 3, "binary": 4, "stream": 5, "application": 6,
}

# spa/param/format.h, spa_media_subtype
MEDIA_SUBTYPES = {
    "unknown": 0, "raw": 1, "dsp": 2, "iec958": 3, "dsd": 4, "mp3": 0x10001, "aac": 0x10002,
    "vorbis": 0x10003, "wma": 0x10004, "ra": 0x10005, "sbc": 0x10006, "adpcm": 0x10007,
    "g723": 0x10008, "g726": 0x10009, "g729": 0x1000a, "amr": 0x1000b, "gsm": 0x1000c,
    "alac": 0x1000d, "flac": 0x1000e, "ape": 0x1000f, "h264": 0x20001, "mjpg": 0x20002,
    "dv": 0x20003, "mpegts": 0x20004, "h263": 0x20005, "mpeg1": 0x20006, "mpeg2": 0x20007,
    "mpeg4": 0x20008, "xvid": 0x20009, "vc1": 0x2000a, "vp8": 0x2000b, "vp9": 0x2000c,
    "bayer": 0x2000d, "jpeg": 0x30001, "midi": 0x50001, "control": 0x60001,
}

# spa/param/audio/raw.h, spa_audio_format; names without an order of bytes are little-endian's
AUDIO_FORMATS = {
    "UNKNOWN": 0, "ENCODED": 1, "S8": 0x101, "U8": 0x102, "S16LE": 0x103, "S16BE": 0x104,
    "U16LE": 0x105, "U16BE": 0x106, "S24_32LE": 0x107, "S24_32BE": 0x108, "U24_32LE": 0x109,
    "U24_32BE": 0x10a, "S32LE": 0x10b, "S32BE": 0x10c, "U32LE": 0x10d, "U32BE": 0x10e,
    "S24LE": 0x10f, "S24BE": 0x110, "U24LE": 0x111, "U24BE": 0x112, "S20LE": 0x113, "S20BE": 0x114,
    "U20LE": 0x115, "U20BE": 0x116, "S18LE": 0x117, "S18BE": 0x118, "U18LE": 0x119, "U18BE": 0x11a,
    "F32LE": 0x11b, "F32BE": 0x11c, "F64LE": 0x11d, "F64BE": 0x11e, "ULAW": 0x11f, "ALAW": 0x120,
    "U8P": 0x201, "S16P": 0x202, "S24_32P": 0x203, "S32P": 0x204, "S24P": 0x205, "F32P": 0x206,
    "F64P": 0x207, "S8P": 0x208, "S16": 0x103, "S16OE": 0x104, "U16": 0x105, "U16OE": 0x106,
    "S24_32": 0x107, "S24_32OE": 0x108, "U24_32": 0x109, "U24_32OE": 0x10a, "S32": 0x10b,
    "S32OE": 0x10c, "U32": 0x10d, "U32OE": 0x10e, "S24": 0x10f, "S24OE": 0x110, "U24": 0x111,
    "U24OE": 0x112, "S20": 0x113, "S20OE": 0x114, "U20": 0x115, "U20OE": 0x116, "S18": 0x117,
    "S18OE": 0x118, "U18": 0x119, "U18OE": 0x11a, "F32": 0x11b, "F32OE": 0x11c, "F64": 0x11d,
    "F64OE": 0x11e,
}

# spa/param/audio/raw.h, spa_audio_channel; LLFR is what 0.3.65 prints for LLFE
CHANNELS = {
    "UNK": 0, "NA": 1, "MONO": 2, "FL": 3, "FR": 4, "FC": 5, "LFE": 6, "SL": 7, "SR": 8, "FLC": 9,
    "FRC": 10, "RC": 11, "RL": 12, "RR": 13, "TC": 14, "TFL": 15, "TFC": 16, "TFR": 17, "TRL": 18,
    "TRC": 19, "TRR": 20, "RLC": 21, "RRC": 22, "FLW": 23, "FRW": 24, "LFE2": 25, "FLH": 26,
    "FCH": 27, "FRH": 28, "TFLC": 29, "TFRC": 30, "TSL": 31, "TSR": 32, "LLFR": 33, "RLFE": 34,
    "BC": 35, "BLC": 36, "BRC": 37,
}
CHANNELS.update({f"AUX{at}": 0x1000 + at for at in range(64)})
CHANNELS["LLFE"] = CHANNELS["LLFR"]

# spa/param/audio/raw.h, the flags of spa_audio_info_raw
AUDIO_FLAGS = {
    "none": 0, "unpositioned": 1,
}

# spa/param/audio/iec958.h, spa_audio_iec958_codec
IEC958_CODECS = {
    "UNKNOWN": 0, "PCM": 1, "DTS": 2, "AC3": 3, "MPEG": 4, "MPEG2-AAC": 5, "EAC3": 6, "TrueHD": 7,
    "DTS-HD": 8,
}

# spa/param/param.h, spa_param_bitorder
BIT_ORDERS = {
    "unknown": 0, "msb": 1, "lsb": 2,
}

# spa/param/format.h, spa_format: the key of each property, and the names of its values, where they
# are Ids; the others are Ints. A position is an Array of Ids.
KEYS = {
    "mediaType": (1, MEDIA_TYPES),
    "mediaSubtype": (2, MEDIA_SUBTYPES),
    "format": (0x10001, AUDIO_FORMATS),
    "flags": (0x10002, AUDIO_FLAGS),
    "rate": (0x10003, None),
    "channels": (0x10004, None),
    "position": (0x10005, CHANNELS),
    "iec958Codec": (0x10006, IEC958_CODECS),
    "bitorder": (0x10007, BIT_ORDERS),
    "interleave": (0x10008, None),
    "bitrate": (0x10009, None),
    "blockAlign": (0x1000a, None),
}

"""Pairs of formats that a daemon is asked to negotiate, as streams and sinks have them."""
import random

SAMPLES = ["S16LE", "F32LE", {"default": "F32P", "alt1": "F32P", "alt2": "F32LE"},
           {"default": "S16LE", "alt1": "S16LE", "alt2": "S32LE", "alt3": "F32LE"},
           {"default": "F32LE", "alt1": "S32LE", "alt2": "F32LE", "alt3": "F32P"},
           {"default": "F32LE", "alt1": "S16LE", "alt2": "F32LE"}]
RATES = [44100, 48000, 48000, 96000, {"default": 48000, "min": 1, "max": 384000},
         {"default": 44100, "min": 8000, "max": 48000},
         {"default": 96000, "min": 64000, "max": 192000},
         {"default": 44100, "alt1": 44100, "alt2": 48000},
         {"default": 48000, "alt1": 44100, "alt2": 48000, "alt3": 96000},
         {"default": 48000, "min": 8000, "max": 96000, "step": 8000},
         {"default": 44100, "min": 11025, "max": 88200, "step": 11025}]
CHANNELS = [1, 2, 2, 2, 6, {"default": 2, "min": 1, "max": 8}, {"default": 6, "min": 3, "max": 8},
            {"default": 2, "alt1": 1, "alt2": 2}]
POSITIONS = {1: [["MONO"]], 2: [["FL", "FR"], ["FL", "FR"], ["FR", "FL"]],
             6: [["FL", "FR", "FC", "LFE", "RL", "RR"]]}
SEED, COUNT = 65, 200


def drawn(draw):
    """A format; one without a rate or channels takes any, as streams may."""
    format = {"mediaType": "audio", "mediaSubtype": "raw", "format": draw.choice(SAMPLES)}
    if draw.random() < 0.93:
        format["rate"] = draw.choice(RATES)
    if draw.random() < 0.93:
        channels = draw.choice(CHANNELS)
        format["channels"] = channels
        if channels in (1, 2, 6) and draw.random() < 0.5:
            format["position"] = draw.choice(POSITIONS[channels])
    return format


def pairs():
    """The pairs, an output's format and an input's; the same in each run."""
    draw = random.Random(SEED)
    return [(drawn(draw), drawn(draw)) for _ in range(COUNT)]

"""TX packets as they are written down: each is tried on the model and kept."""

import model
from handmade import EXT, built, words_of

vectors = []  # (group, packet)


def add(group, packet, number=None):
    """number: the refusal that 01's order gives, where it is plain to see."""
    got = model.read(model.TX, EXT, packet)
    if number is not None:
        assert got == model.Refused(number), (group, packet.hex(), number, got)
    vectors.append((group, packet))


def good(group, packet):
    assert isinstance(model.read(model.TX, EXT, packet), model.Message), (group, packet.hex())
    vectors.append((group, packet))


def stepped(group, items, others, count=None, **rest):
    """02: "stepped over and its value isn't kept": what is read is what the other items alone say."""
    packet = built(words=words_of(0x2081, items, count), **rest)
    without = built(words=words_of(0x2081 if others else 0x2080, others), **rest)
    got = model.read(model.TX, EXT, packet)
    assert isinstance(got, model.Message) and got == model.read(model.TX, EXT, without), (group, packet.hex(), got)
    vectors.append((group, packet))

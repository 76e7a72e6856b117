"""What a receiver that was built for a DBC file reads from frames on a bus, by Vector's documentation of the format and by
IEEE 754, bit by bit. Nothing here knows of canoffice, or of what `compare` prints.
"""
from collections import namedtuple as record
from fractions import Fraction
from functools import lru_cache

# `mux` is "M" of the multiplexor, a number of a signal that is there for that value of it, and else `None`. `factor` and
# `offset` are decimals as texts. A receiver doesn't read `note`, which is the least, the greatest, the unit and the receivers.
Signal = record("Signal", "name start size order signed type mux factor offset note")
# An identifier is (whether it has 29 bits, its number).
Message = record("Message", "name identifier length sender signals")
Frame = record("Frame", "identifier payload")
# The raw value, and factor and offset: the value is raw * factor + offset.
Reading = record("Reading", "raw factor offset")


# ---- bits

@lru_cache(None)
def places(start, size, order):
    """The positions of the bits, the least significant first. Of Intel the start is the least significant bit, and the others
    are above it. Of Motorola it is the most significant one, and the others are below it in the byte, then from the top of
    the next byte on."""
    if order == "intel":
        return tuple(range(start, start + size))
    byte, bit, found = start // 8, start % 8, []
    for _ in range(size):
        found.append(8 * byte + bit)
        byte, bit = (byte, bit - 1) if bit else (byte + 1, 7)
    return tuple(reversed(found))


def places_of(signal):
    return places(signal.start, signal.size, signal.order)


def pattern(payload, signal):
    """The number that the bits write. A position counts the bits of the first byte from its least significant one on, then
    those of the next byte; past the payload there are none."""
    bits, found = sum(byte << 8 * at for at, byte in enumerate(payload)), 0
    for weight, place in enumerate(places_of(signal)):
        found += (bits >> place & 1) << weight
    return found


# ---- values

def of_ieee(bits, width, fraction_width):
    """The number of such a pattern; what is none, and the lower one of the two zeros, is a word."""
    fraction, exponent = bits % (1 << fraction_width), bits >> fraction_width
    exponent_width = width - 1 - fraction_width
    sign, exponent = exponent >> exponent_width, exponent % (1 << exponent_width)
    if exponent == (1 << exponent_width) - 1:
        return f"no number {bits:x}" if fraction else "-infinity" if sign else "infinity"
    if exponent == fraction == 0:
        return "-0" if sign else Fraction(0)
    power = max(exponent, 1) - ((1 << exponent_width - 1) - 1) - fraction_width
    whole = (fraction + (1 << fraction_width if exponent else 0)) * (-1 if sign else 1)
    return Fraction(whole << power) if power >= 0 else Fraction(whole, 1 << -power)


def raw_value(payload, signal):
    bits = pattern(payload, signal)
    if signal.type == "float":
        return of_ieee(bits, 32, 23)
    if signal.type == "double":
        return of_ieee(bits, 64, 52)
    # In two's complement the most significant bit counts as its negative.
    return bits - (1 << signal.size) if signal.signed and bits >> signal.size - 1 else bits


decimal = lru_cache(None)(Fraction)


# ---- messages

def multiplexor(message):
    return next((it for it in message.signals if it.mux == "M"), None)


def is_there(message, payload, signal):
    """A signal under a value is there where the multiplexor has it."""
    if signal.mux in (None, "M"):
        return True
    selector = multiplexor(message)
    return selector is not None and pattern(payload, selector) == signal.mux


def read(message, payload, signal):
    """What is read of a signal of the message; `None` where it isn't there."""
    if not is_there(message, payload, signal):
        return None
    return Reading(raw_value(payload, signal), decimal(signal.factor), decimal(signal.offset))


def named(things, name):
    return next((it for it in things if it.name == name), None)


def received(messages, frame):
    """The message that a receiver takes the frame for: that of its identifier, if it has its length."""
    return next((it for it in messages if it.identifier == frame.identifier and it.length == len(frame.payload)), None)


def successor(old, new, message):
    """The message of the new file that is this one of the old file: that of its name, or the one at its identifier, if it has
    been renamed: neither name is in the other file."""
    there = next((it for it in new if it.identifier == message.identifier), None)
    renamed = there if there and not named(old, there.name) else None
    return named(new, message.name) or renamed


def misread(old, new, frame):
    """How a receiver that was built for the old file takes the frame otherwise than one means it who was built for the new
    one; `None` where it doesn't. What is new in the new file is no business of the old receiver."""
    taken, meant = received(old, frame), received(new, frame)
    owners = [it for it in old if meant and successor(old, new, it) is meant]
    if taken not in (owners or [None]):
        return f"{taken and taken.name} is taken, and {meant and meant.name} meant"
    for signal in taken.signals if taken else ():
        other = named(meant.signals, signal.name)
        if other is None:
            return f"{taken.name}.{signal.name} isn't there any more"
        was, now = read(taken, frame.payload, signal), read(meant, frame.payload, other)
        if was != now:
            return f"{taken.name}.{signal.name} is read as {was}, and {now} meant"
    return None

"""Pairs of small DBC files that a generator draws, the same ones for the same seed, for `compare_decoded`: the second file
is the first one with one change, or two, or none. Messages are those of `receiver_model`. In the first file signals that are
there at one time share no bits, and where a signal is under a value there is one multiplexor. In the second file each signal
is inside its message, and no other one has a bit of the multiplexor.
"""
import random

from receiver_model import Message, Signal, multiplexor, places_of

NAMES = ["A", "B", "C", "D", "Torque", "Lamps"]
SIGNALS = ["S", "T", "U", "V", "W", "Speed"]
IDENTIFIERS = [(extended, number) for extended in (False, True) for number in (0, 1, 256, 257, 0x7FF)]
IDENTIFIERS += [(True, 0x18FF0000), (True, 0x1FFFFFFF)]
LENGTHS = [1, 2, 3, 4, 8, 8, 8, 8, 12]
SIZES = [1, 1, 2, 3, 4, 8, 8, 8, 10, 16, 32, 32, 32, 32, 64, 64]
# Each factor and offset, and another spelling of it.
DECIMALS = {"0": "0.0", "1": "1.0", "-1": "-1E0", "0.5": "5E-1", "-0.125": "-0.1250", "100": "1E2", "40": "40.00"}
FLOATS = {32: "float", 64: "double"}
NOTES = ["0", "1", "255"], ["0", "7", "1000"], ["", "rpm", "%"], ["Vector__XXX", "Dash", "Dash,Engine"]
SENDERS = ["Vector__XXX", "Dash", "Engine"]
# A value that few multiplexors can write.
LARGE = 300


def can_be_together(signal, other):
    """They share no bit, or are never there at one time."""
    if isinstance(signal.mux, int) and isinstance(other.mux, int) and signal.mux != other.mux:
        return True
    return not set(places_of(signal)) & set(places_of(other))


def is_inside(message):
    return all(0 <= min(places_of(it)) and max(places_of(it)) < 8 * message.length for it in message.signals)


def is_fit(message):
    """It can be in the second file of a pair."""
    selectors = [it for it in message.signals if it.mux == "M"]
    others = [it for it in message.signals if it.mux != "M"]
    if len(selectors) > 1 or not is_inside(message):
        return False
    return all(can_be_together(it, other) for it in selectors for other in others)


def with_bits_elsewhere(signal):
    """The signal with the same bits in the other order, if they are in one byte."""
    first, last = min(places_of(signal)), max(places_of(signal))
    if first // 8 != last // 8:
        return None
    order, start = ("motorola", last) if signal.order == "intel" else ("intel", first)
    return signal._replace(order=order, start=start)


class DrawnChanges:
    def __init__(self, seed):
        self.drawn = random.Random(seed)
        self.choice = self.drawn.choice

    # ---- a file

    def note(self):
        return tuple(map(self.choice, NOTES))

    def signal(self, name, length, mux):
        sizes = [size for size in SIZES if size <= 8 * length and (mux != "M" or size <= 8)]
        size = self.choice(sizes)
        kind = FLOATS[size] if size in FLOATS and self.drawn.random() < 0.7 else "integer"
        byte = self.drawn.randrange(length)
        start = 8 * byte + self.choice([0, 7, self.drawn.randrange(8)])
        return Signal(
            name, start, size, self.choice(["intel", "motorola"]), self.drawn.random() < 0.5, kind, mux,
            self.choice(list(DECIMALS)), self.choice(list(DECIMALS)), self.note())

    def value_under(self, message):
        selector = multiplexor(message)
        if selector is None:
            return None
        value = self.drawn.randrange(min(4, 1 << selector.size))
        return LARGE if self.drawn.random() < 0.05 else self.choice([None, value, value])

    def with_signal(self, message, mux=None):
        """The message with a signal more, if there is room for the one that is drawn."""
        free = [name for name in SIGNALS if not any(it.name == name for it in message.signals)]
        if not free:
            return message
        it = self.signal(self.choice(free), message.length, mux or self.value_under(message))
        longer = message._replace(signals=[*message.signals, it])
        return longer if is_inside(longer) and all(can_be_together(it, other) for other in message.signals) else message

    def message(self, name, identifier):
        found = Message(name, identifier, self.choice(LENGTHS), self.choice(SENDERS), [])
        is_multiplexed = self.drawn.random() < 0.35
        for _ in range(self.choice([4, 8, 8])):
            found = self.with_signal(found, "M" if is_multiplexed and multiplexor(found) is None else None)
        return found

    def file(self):
        count = self.choice([1, 2, 2, 3])
        heads = zip(self.drawn.sample(NAMES, count), self.drawn.sample(IDENTIFIERS, count))
        found = [self.message(*it) for it in heads]
        if count > 1 and self.drawn.random() < 0.4:
            # Two that are alike but for their names.
            found[0] = found[1]._replace(name=found[0].name, identifier=found[0].identifier)
        return found

    # ---- a change of messages; `None` where there is none of the kind

    def free_name(self, messages):
        return self.choice([name for name in NAMES if not any(it.name == name for it in messages)])

    def free_identifier(self, messages):
        return self.choice([number for number in IDENTIFIERS if not any(it.identifier == number for it in messages)])

    def exchanged(self, first, second, *others):
        return [first._replace(identifier=second.identifier), second._replace(identifier=first.identifier), *others]

    def taken(self, first, second, *others):
        """The first is gone, and the second has its identifier."""
        return [second._replace(identifier=first.identifier), *others]

    def named_anew(self, first, second, *others):
        """The first is gone, and the second has its name."""
        return [second._replace(name=first.name), *others]

    def renumbered(self, first, *others):
        return [first._replace(identifier=self.free_identifier([first, *others])), *others]

    def in_other_form(self, first, *others):
        extended, number = first.identifier
        other = not extended, number % 0x800
        return None if any(it.identifier == other for it in others) else [first._replace(identifier=other), *others]

    def renamed(self, first, *others):
        return [first._replace(name=self.free_name([first, *others])), *others]

    def removed(self, first, *others):
        return [*others]

    def added(self, *others):
        return [self.message(self.free_name(others), self.free_identifier(others)), *others]

    def of_other_length(self, first, *others):
        return [first._replace(length=self.choice(LENGTHS)), *others]

    def sent_by_another(self, first, *others):
        return [first._replace(sender=self.choice(SENDERS)), *others]

    # ---- of the signals of a message

    def with_signals(self, change, first, *others):
        signals = change(first, self.drawn.sample(first.signals, len(first.signals))) if first.signals else None
        return signals and [first._replace(signals=signals), *others]

    def reordered(self, message, signals):
        return signals

    def one_signal_less(self, message, signals):
        return [it for it in message.signals if it is not signals[0]]

    def one_signal_more(self, message, signals):
        return self.with_signal(message).signals

    def one_signal_else(self, message, signals):
        """A change of the first of the signals that can have it."""
        change = self.choice([
            self.start, self.size, self.order, self.order, *[self.same_bits] * 3, self.sign, self.sign, *[self.sign_of_float] * 2,
            *[self.type] * 2, self.mux, self.mux, self.factor, self.offset, self.spelling, self.note_of])
        for it in signals:
            if other := change(message, it):
                return [other if signal is it else signal for signal in message.signals]
        return None

    def start(self, message, it):
        return it._replace(start=self.drawn.randrange(8 * message.length))

    def size(self, message, it):
        return it._replace(size=it.size + self.choice([-1, 1])) if it.type == "integer" and 1 < it.size < 64 else None

    def order(self, message, it):
        return it._replace(order="motorola" if it.order == "intel" else "intel")

    def same_bits(self, message, it):
        return with_bits_elsewhere(it)

    def sign(self, message, it):
        return it._replace(signed=not it.signed)

    def sign_of_float(self, message, it):
        return self.sign(message, it) if it.type != "integer" else None

    def type(self, message, it):
        return it._replace(type="integer" if it.type != "integer" else FLOATS[it.size]) if it.size in FLOATS else None

    def mux(self, message, it):
        return it._replace(mux=self.choice([None, "M", 0, 1, 2, LARGE]))

    def factor(self, message, it):
        return it._replace(factor=self.choice(list(DECIMALS)))

    def offset(self, message, it):
        return it._replace(offset=self.choice(list(DECIMALS)))

    def spelling(self, message, it):
        return it._replace(factor=DECIMALS[it.factor]) if it.factor in DECIMALS else None

    def note_of(self, message, it):
        return it._replace(note=self.note())

    # ---- a pair

    def changed_once(self, messages):
        messages = self.drawn.sample(messages, len(messages))
        if self.drawn.random() < 0.6:
            change = self.choice([self.reordered, self.one_signal_less, self.one_signal_more, *[self.one_signal_else] * 14])
            return self.with_signals(change, *messages) if messages else None
        of_two = [*[self.exchanged] * 3, self.taken, self.named_anew]
        of_one = [
            self.renumbered, self.in_other_form, self.renamed, self.renamed, self.removed, self.of_other_length,
            self.sent_by_another]
        return self.choice([self.added, *of_one * bool(messages), *of_two * (len(messages) > 1)])(*messages)

    def changed(self, messages):
        for _ in range(100):
            found = self.changed_once(messages)
            if found is not None and all(map(is_fit, found)):
                return found
        return messages

    def pair(self):
        old = self.file()
        new = old
        for _ in range(self.choice([0, *[1] * 14, *[2] * 4])):
            new = self.changed(new)
        return old, new

    # ---- frames

    def payload(self, length):
        return self.choice([*[self.drawn.randbytes] * 3, bytes, lambda count: b"\xff" * count])(length)



def written(payload, signal, value):
    """The payload with these bits in the signal, as far as it has room."""
    found = bytearray(payload)
    for weight, place in enumerate(places_of(signal)):
        if place // 8 < len(found):
            found[place // 8] &= ~(1 << place % 8)
            found[place // 8] |= (value >> weight & 1) << place % 8
    return bytes(found)


# ---- texts

def number_in_file(identifier):
    extended, number = identifier
    return number + (1 << 31) * extended


def signal_text(it):
    mux = "" if it.mux is None else f" {'M' if it.mux == 'M' else f'm{it.mux}'}"
    layout = f"{it.start}|{it.size}@{'10'[it.order == 'motorola']}{'+-'[it.signed]}"
    least, most, unit, receivers = it.note
    return f' SG_ {it.name}{mux} : {layout} ({it.factor},{it.offset}) [{least}|{most}] "{unit}" {receivers}\n'


def dbc_text(messages):
    found = ['VERSION ""\n\nBU_: Dash Engine\n']
    for it in messages:
        found.append(f"\nBO_ {number_in_file(it.identifier)} {it.name}: {it.length} {it.sender}\n")
        found += map(signal_text, it.signals)
    for it in messages:
        found += [f"SIG_VALTYPE_ {number_in_file(it.identifier)} {signal.name} : {2 if signal.type == 'double' else 1};\n"
                  for signal in it.signals if signal.type != "integer"]
    return "".join(found)

"""Draws DBC files that read, with and without what is remarked on, for cases that compare remarks with the model.

    drawn_remarks.py SEED       prints the file of the seed
"""
import random
import sys

# The upper 21 bits of identifiers: one parameter group in two priorities, and one to two destinations (SAE J1939-21).
GROUPS = 0x0CF004, 0x18F004, 0x18EF03, 0x18EF04


def drawn_file(seed):
    draw = random.Random(seed)
    gaps = draw.choice((" ", "\n", "\r\n", "\t", "  \n "))
    nodes = draw.sample(["A", "B", "C", "Dash", "N" * 32, "O" * 33], draw.randrange(0, 6))
    known = nodes + ["Vector__XXX"] + ["Ghost"] * draw.randrange(0, 2)
    pieces, numbers = [], set()

    def number():
        digits = draw.choice(("0", "1", "3", "4", "9", "15", "16", "127", "128", "255", "256", "900", "0.1", "0.125", "1.0",
                              "1e1", "2.50", "65535", "4294967295", "18446744073709551615", "1E30", "1E-30", "1E36"))
        return draw.choice(("", "", "-")) + digits

    def signal(name, mux):
        layout = f"{draw.randrange(0, 64)}|{draw.choice((1, 2, 8, 16, 32, 64))}@{draw.choice('01')}{draw.choice('+-')}"
        factor = draw.choice(("1", "0", "0.1", "-1", "1E-9", number()))
        lists = draw.choice(("Vector__XXX", ",".join(draw.choices(known, k=draw.randrange(1, 4)))))
        return (f"SG_ {name} {mux}: {layout} ({factor},{draw.choice(('0', number()))}) "
                f"[{draw.choice(('0', number()))}|{draw.choice(('0', number()))}] \"SG_ {name}\" {lists}")

    def message(index):
        number = draw.randrange(0, 2048) if draw.randrange(2) else (
            1 << 31 | draw.choice((draw.randrange(1 << 21), *GROUPS)) << 8 | draw.choice((0, 5, 5, 254, 254, 7)))
        if number in numbers:
            return
        numbers.add(number)
        name = draw.choice((f"M{index}", f"M{index}" + "m" * draw.randrange(29, 32)))
        names = draw.sample(["S", "T", "Other", name, "Long" * 8, "Long" * 8 + "r", "M", "m1"], draw.randrange(0, 7))
        marked, signals = draw.randrange(0, 8), []
        for place, each in enumerate(names):
            mux = "M " if place == marked else draw.choice(("", "", f"m{draw.choice((0, 1, 3, 4, 255, 256, 4294967295))} "))
            signals.append(signal(each, mux))
        length = draw.choice((0, 8, 8, 8, 9, 64))
        pieces.append(gaps.join([f"BO_ {number} {name}: {length} {draw.choice(known)}"] + signals))
        for each in names:
            texts = " ".join(f'{number_text} "x"' for number_text in
                             [draw.choice(("0", "1", "-1", "3", "4", "1.0", "1.5", "255", "256", "1E1", "10"))
                              for _ in range(draw.randrange(0, 5))])
            pieces.extend(draw.sample([
                f"VAL_ {number} {each} {texts} ;",
                f"SIG_VALTYPE_ {number} {each} {draw.choice((':', ''))} {draw.randrange(3)} ;",
                f'BA_ "SPN" SG_ {number} {each} {draw.choice((0, 190, 190, 191, 524287))} ;',
                f'BA_ "Odd" BO_ {number} {each} : SG_ {each} ;',
                f'CM_ SG_ {number} {each} "BO_ {number} {each}: 8 A SG_ {each}" ;',
                f'CM_ BO_ {number} "BU_ A" ;',
            ], draw.randrange(0, 6)))

    for index in range(draw.randrange(0, 5)):
        message(index)
    tables = draw.sample(["Table", "T" * 32, "T" * 33], draw.randrange(0, 4))
    pieces.extend(f'VAL_TABLE_ {name} {" ".join(draw.choice(("0", "1", "1.0", "-2", "1E400")) + chr(34) * 2 for _ in range(3))} ;'
                  for name in tables)
    cut = draw.randrange(0, len(nodes) + 1)
    pieces.extend(f"BU_ : {draw.choice((' ', ', ')).join(some)}" for some in (nodes[:cut], nodes[cut:]) if some)
    draw.shuffle(pieces)
    return gaps.join(['VERSION ""'] + pieces + [""]).encode()


if __name__ == "__main__":
    sys.stdout.buffer.write(drawn_file(int(sys.argv[1])))

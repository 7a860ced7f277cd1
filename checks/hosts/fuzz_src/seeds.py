"""The first inputs of each target, in FOLDER/TARGET: those made of c/test/lasting.rows, levels that fit each kind, and
the few of found.rows, which reach the other blocks of the assembly that runs of twelve minutes reached.

    python3 seeds.py FOLDER
"""
import pathlib
import random
import struct
import sys

HERE = pathlib.Path(__file__).resolve().parent


def table():
    """The inputs of the table, with their kinds and dimensions, or their statuses."""
    for line in (HERE.parents[2] / "c/test/lasting.rows").read_text(encoding="utf-8").splitlines():
        if not line.startswith("#"):
            data, status, *fields = line.split(" ")
            yield bytes.fromhex(data), *(map(int, fields[7:9]) if status == "0" else (int(status), 0))


def columns(rows):
    """The rows in columns, six of a kind and a dimension, and twelve from anywhere."""
    alike, mixed = sorted(rows, key=lambda row: row[1:]), [rows[i * 1009 % len(rows)] for i in range(len(rows))]
    groups = [it[at : at + size] for it, size in ((alike, 6), (mixed, 12)) for at in range(0, len(rows), size)]
    for number, group in enumerate(groups):
        data, kind, dimension = zip(*group)
        choices = len(group), number % 16 | 16 * (number % 3 > 0), kind[0] % 4 | dimension[0] << 2, number * 37 % 256
        steps = struct.pack(f"<{len(group) + 1}h", 0, *map(len, data))
        yield bytes([*choices, 0xff, 0xf7, 0xff, 0xff]) + steps + b"".join(data)


def levels(numbers):
    """Levels of each kind and dimension; where each item has one of the next level, now and then without ends."""
    for kind, dimension in (divmod(it, 4) for it in range(4, 28)):
        mosts = (3 if kind > 3 else 1), (3 if kind % 3 == 0 else 1), (5 if kind % 3 != 1 else 1)
        for _ in range(20):
            counts, steps, has_ends = [numbers.randrange(8)], b"", 0
            for level, most in enumerate(mosts):
                own = [numbers.randrange(most + 1) if most > 1 else 1 for _ in range(counts[-1])]
                has_ends |= (most > 1 or numbers.randrange(2)) << level
                counts, steps = [*counts, sum(own)], steps + bytes(own)
            words = numbers.randbytes(8 * (2 + dimension % 2 + dimension // 2) * counts[3])
            choices = kind | dimension << 3, numbers.randrange(64), has_ends | numbers.randrange(16) << 3
            yield bytes([*counts[:3], *choices, *numbers.randbytes(4)]) + steps + words


def main(folder):
    rows = list(table())
    # Of these each is compared with one of another byte, at a place that the last byte chooses.
    zeros = [struct.pack("<BII", 1, 2, 20) + bytes(16 * 20) + bytes([it]) for it in range(256)]
    one, many = [*(row[0] for row in rows), *zeros], [*levels(random.Random(1))]
    first = {"one": one, "column": [*columns(rows)], "levels": many}
    for line in (HERE / "found.rows").read_text(encoding="utf-8").splitlines():
        target, data = line.split(" ")
        first[target].append(bytes.fromhex(data))
    for target, inputs in first.items():
        (folder / target).mkdir(parents=True)
        for number, data in enumerate(inputs):
            (folder / target / f"{number:04}").write_bytes(data)


main(pathlib.Path(sys.argv[1]))

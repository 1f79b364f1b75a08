"""The memory that the built program has for each row of a table, with and without an index. See memory.sh."""
import sys

from pauses import Script, row

FEW, MANY, PIECE = 1_000, 131_000, 1_000
LOOK_UPS = {"no index": None, "an index of INTEGER": "amount = -1", "an index of TEXT": "name = ''"}


def held(program, rows, look_up):
    """The bytes of a run that has so many rows. Where rows are looked up twice now and then, there is an index."""
    script = Script(program)
    script.ask(["CREATE TABLE t (name TEXT, amount INTEGER)"])
    for start in range(0, rows, PIECE):
        script.ask([row(n) for n in range(start, start + PIECE)])
        script.ask(2 * [f"SELECT name FROM t WHERE {look_up}"] if look_up else [])
    found = script.memory()
    script.close()
    return found


def main(program):
    for name, look_up in LOOK_UPS.items():
        more = held(program, MANY, look_up) - held(program, FEW, look_up)
        print(f"{name + ':':<22}{more / (MANY - FEW):>8.1f} bytes a row", flush=True)


if __name__ == "__main__":
    main(sys.argv[1])

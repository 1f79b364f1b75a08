"""Loads of the measurements in this folder: the engine of bench/load with a table for each client."""
from load_engine import BATCH, Run, Work
from load_table import prepare


def work(port, clients, statements, pipelined, kind, table="t"):
    """So many statements of each client, of one kind, so many at a time. Of `rpush` the server is one of Redis."""
    return Work(port=int(port), users=[f"u{n}" for n in range(clients)], mix={kind: 1}, clients=clients,
        pipeline=pipelined, statements=clients * statements, table=table, own_tables=True)


def loaded(engine, asked):
    """Statements a second, and the 50th, 99th and 99.9th percentile of the time to the replies of one write, in
    microseconds; these are at most 1/128 above the exact ones."""
    if "rpush" not in asked.mix:
        prepare(asked)
    whole, *others = Run(engine, asked).intervals()
    for other in others:
        whole.append(other)
    writes = whole.kinds[BATCH]
    return [whole.all().total / whole.length, *(writes.percentile(percent) / 1000 for percent in (50, 99, 99.9))]

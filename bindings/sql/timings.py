"""Times 100,000 transfers in PostgreSQL, in SQLite, with Dask and in a pipe: processor seconds, and rows per second of
them.

    /usr/bin/python3 bindings/sql/timings.py pipe PROGRAM
    /usr/bin/python3 bindings/sql/timings.py sqlite EXTENSION
    /usr/bin/python3 bindings/sql/timings.py postgresql CONNECTION      a database with `bcs` on the search path
    /usr/bin/python3 bindings/sql/timings.py dask LIBRARY               the module `bcs_proved` on the path
"""

from __future__ import annotations

import os
import pathlib
import resource
import subprocess
import sys
import tempfile
import threading
from collections.abc import Iterable, Iterator
from typing import Any

ROOT = pathlib.Path(__file__).resolve().parent.parent.parent
COUNT = 100_000
REGISTRY = (ROOT / "examples/aptos_registry.json").read_text(encoding="utf-8")
TRANSFER = bytes.fromhex((ROOT / "examples/aptos_transfer.hex").read_text(encoding="utf-8"))
FORMAT = "RawTransaction"


def transfers() -> Iterator[bytes]:
    """Each has a sequence number of its own."""
    for number in range(COUNT):
        yield TRANSFER[:32] + number.to_bytes(8, "little") + TRANSFER[40:]


def tell(what: str, seconds: float) -> None:
    print(f"| {what} | {seconds:.2f} | {COUNT / seconds:,.0f} |", flush=True)


def spent(who: int) -> float:
    """Processor seconds of this process, or of its children that have ended."""
    usage = resource.getrusage(who)
    return usage.ru_utime + usage.ru_stime


def spent_by(pid: int) -> float:
    fields = pathlib.Path(f"/proc/{pid}/stat").read_text().rsplit(")", 1)[1].split()
    return (int(fields[11]) + int(fields[12])) / os.sysconf("SC_CLK_TCK")


def pipe(program: str) -> None:
    registry = str(ROOT / "examples/aptos_registry.json")
    digits = "".join(transfer.hex() + "\n" for transfer in transfers()).encode()
    texts = b""
    for command in ["scan", "decode", "encode"]:
        before = spent(resource.RUSAGE_CHILDREN)
        words = [program, command, "--quiet", "--lines", registry, FORMAT]
        given = texts if command == "encode" else digits
        printed = subprocess.run(words, input=given, check=True, capture_output=True).stdout
        if command == "decode":
            texts = printed
        tell(f"`bcs {command} --lines`", spent(resource.RUSAGE_CHILDREN) - before)


def sqlite(extension: str) -> None:
    import sqlite3

    database = sqlite3.connect(":memory:")
    database.enable_load_extension(True)
    database.load_extension(extension)
    database.execute("create table registries (name text, registry text)")
    database.execute("create table transfers (bytes blob, value text)")
    database.execute("insert into registries values ('aptos', ?)", [REGISTRY])
    database.executemany("insert into transfers (bytes) values (?)", ([transfer] for transfer in transfers()))
    database.execute("update transfers set value = bcs_decode(?, ?, bytes)", [REGISTRY, FORMAT])
    statements = [
        ("`length(bytes)`, to compare", "select sum(length(bytes)) from transfers where ? <> ?"),
        ("`bcs_is`", "select sum(bcs_is(?, ?, bytes)) from transfers"),
        ("`bcs_decode`", "select count(bcs_decode(?, ?, bytes)) from transfers"),
        ("`bcs_decode(..) ->> 'sender'`", "select count(bcs_decode(?, ?, bytes) ->> 'sender') from transfers"),
        ("`bcs_encode`", "select count(bcs_encode(?, ?, value)) from transfers"),
        (
            "`bcs_decode`, the registry from a joined table",
            "select count(bcs_decode(registry, 'RawTransaction', bytes)) from transfers, registries where ? <> ?",
        ),
    ]
    for what, statement in statements:
        before = spent(resource.RUSAGE_SELF)
        database.execute(statement, [REGISTRY, FORMAT]).fetchone()
        tell(what, spent(resource.RUSAGE_SELF) - before)


def at_once(cursors: list[Any], statements: list[str]) -> None:
    """Executes a statement with each cursor, at the same time."""
    threads = [
        threading.Thread(target=cursor.execute, args=[statement]) for cursor, statement in zip(cursors, statements)
    ]
    for thread in threads:
        thread.start()
    for thread in threads:
        thread.join()


def in_backends(connection: str, statement: str, count: int) -> float:
    """Processor seconds of COUNT backends, which execute the statement at once, each over its part of the rows."""
    import psycopg2

    sessions = [psycopg2.connect(connection) for _ in range(count)]
    cursors = [session.cursor() for session in sessions]
    pids = [session.get_backend_pid() for session in sessions]
    for cursor in cursors:
        cursor.execute("set max_parallel_workers_per_gather = 0")
        cursor.execute("set jit = off")
        cursor.execute(statement % "id = 0")
    before = sum(map(spent_by, pids))
    share = COUNT // count
    parts = [f"id > {number * share} and id <= {(number + 1) * share}" for number in range(count)]
    at_once(cursors, [statement % part for part in parts])
    spent = sum(map(spent_by, pids)) - before
    for session in sessions:
        session.close()
    return spent


def make_tables(connection: str) -> None:
    import psycopg2

    with psycopg2.connect(connection) as session, session.cursor() as cursor:
        cursor.execute("drop table if exists transfers")
        cursor.execute("delete from bcs_registries where name = 'aptos'")
        cursor.execute("insert into bcs_registries values ('aptos', %s)", [REGISTRY])
        cursor.execute("create table transfers (id serial primary key, bytes bytea, value jsonb, text json)")
        cursor.execute(
            "insert into transfers (bytes) select substr(%s, 1, 32) || decode(lpad(to_hex(n), 8, '0'), 'hex')"
            " || substr(%s, 37) from generate_series(1, %s) as n",
            [TRANSFER, TRANSFER, COUNT],
        )
        cursor.execute(
            "update transfers set value = bcs_decode('aptos', 'RawTransaction', bytes),"
            " text = bcs_decode_json('aptos', 'RawTransaction', bytes)"
        )


def postgresql(connection: str) -> None:
    make_tables(connection)
    statements = [
        ("`length(bytes)`, to compare", "sum(length(bytes))"),
        ("`length(value::text)` of `jsonb`, to compare", "sum(length(value::text))"),
        ("`bcs_is`", "count(bcs_is('aptos', 'RawTransaction', bytes))"),
        ("`bcs_decode_json`", "count(bcs_decode_json('aptos', 'RawTransaction', bytes))"),
        ("`bcs_decode`", "count(bcs_decode('aptos', 'RawTransaction', bytes))"),
        ("`bcs_encode_json`", "count(bcs_encode_json('aptos', 'RawTransaction', text))"),
        ("`bcs_encode`", "count(bcs_encode('aptos', 'RawTransaction', value))"),
        ("`bcs_decode`, the registry from a joined table", "count(bcs_decode(registry, 'RawTransaction', bytes))"),
        ("`bcs_decode`, the name from a joined table", "count(bcs_decode(name, 'RawTransaction', bytes))"),
    ]
    for what, expression in statements:
        joined = ", bcs_registries" if "joined" in what else ""
        for count in 1, 4:
            spent = in_backends(connection, f"select {expression} from transfers{joined} where %s", count)
            tell(f"{what}, {count} backend{'s' if count > 1 else ''}", spent)


def time_of(processes: Iterable[Any]) -> float:
    return float(sum(sum(process.cpu_times()[:2]) for process in processes))


def write_files(folder: pathlib.Path) -> None:
    """All transfers, in 20 files."""
    folder.mkdir()
    lines = [transfer.hex() + "\n" for transfer in transfers()]
    for file in range(20):
        (folder / f"{file:02}.hex").write_text("".join(lines[file * COUNT // 20 : (file + 1) * COUNT // 20]))


def dask(library: str) -> None:
    os.environ["BCS_LIBRARY"] = library
    sys.path.insert(0, str(ROOT / "examples"))
    import dask_decode
    import psutil
    from dask.distributed import Client, LocalCluster

    with tempfile.TemporaryDirectory() as room:
        folder, out = pathlib.Path(room) / "given", pathlib.Path(room) / "out"
        write_files(folder)
        out.mkdir()
        for count in 1, 2, 4:
            words = {"n_workers": count, "threads_per_worker": 1, "memory_limit": 0, "dashboard_address": None}
            with LocalCluster(local_directory=room, **words) as cluster, Client(cluster) as client:
                client.wait_for_workers(count)
                client.upload_file(dask_decode.__file__)
                processes = [psutil.Process(), *psutil.Process().children(recursive=True)]
                before = time_of(processes)
                dask_decode.decode_folder(client, REGISTRY, FORMAT, folder, out)
                tell(f"`dask_decode.py`, {count} worker{'s' if count > 1 else ''}", time_of(processes) - before)


if __name__ == "__main__":
    if len(sys.argv) != 3:
        sys.exit(__doc__)
    {"pipe": pipe, "sqlite": sqlite, "postgresql": postgresql, "dask": dask}[sys.argv[1]](sys.argv[2])

"""Tests what needs more than one session, and databases of other encodings.

Such as names that another session changes, calls that are cancelled, running out of memory in a backend, and memory
over many calls. The variables PGHOST and PGUSER name the server. Its databases don't have the extension yet.
"""

from __future__ import annotations

import contextlib
import json
import os
import pathlib
import re
import resource
import subprocess
import threading
import time
import unittest
from collections.abc import Iterator
from typing import Any

import psycopg2

CALLS = int(os.environ.get("CALLS", "1000000"))
PAYMENTS = '{"Payment":{"STRUCT":[{"to":"STR"},{"amount":"U64"}]}}'
OTHER = '{"Payment":{"STRUCT":[{"to":"STR"},{"cents":"U64"}]}}'
PAYMENT = "\\x03626f620700000000000000"
# A list of 268 million units, which takes gigabytes and many seconds.
ENDLESS = """select bcs_decode_json('{}', '{"SEQ":"UNIT"}', '\\xffffff7f', 4294967295)"""


def connect(database: str) -> Any:
    connection = psycopg2.connect(dbname=database)
    connection.autocommit = True
    return connection


def value(connection: Any, statement: str, *arguments: object) -> Any:
    with connection.cursor() as cursor:
        cursor.execute(statement, arguments)
        return cursor.fetchone()[0]


def run(connection: Any, statement: str, *arguments: object) -> None:
    with connection.cursor() as cursor:
        cursor.execute(statement, arguments)


def refusal(connection: Any, statement: str, *arguments: object) -> tuple[str, str]:
    """The SQLSTATE and the message of the error that a statement ends with. Both are empty if it succeeds."""
    try:
        run(connection, statement, *arguments)
    except psycopg2.Error as fault:
        return fault.pgcode, fault.diag.message_primary
    return "", ""


def install(session: Any) -> None:
    """As README.md does it, with the schema on the search path of later sessions, and of this one."""
    run(session, "create schema bcs")
    run(session, "grant usage on schema bcs to public")
    run(session, "create extension bcs schema bcs")
    run(session, f"alter database {session.info.dbname} set search_path = public, bcs")
    run(session, "set search_path = public, bcs")


def process_memory(pid: int, name: str) -> int:
    """A line of the process's status, in bytes."""
    status = pathlib.Path(f"/proc/{pid}/status").read_text()
    found = re.search(rf"^{name}:\s+(\d+) kB$", status, re.MULTILINE)
    assert found
    return int(found[1]) * 1024


@contextlib.contextmanager
def address_space(pid: int, length: int) -> Iterator[None]:
    """Limits the process's address space for a while."""
    before = resource.prlimit(pid, resource.RLIMIT_AS)
    resource.prlimit(pid, resource.RLIMIT_AS, (length, before[1]))
    try:
        yield
    finally:
        resource.prlimit(pid, resource.RLIMIT_AS, before)


class Database(unittest.TestCase):
    """With a database of its own."""

    name, options = "sessions", ""

    def setUp(self) -> None:
        server = connect("postgres")
        run(server, f"drop database if exists {self.name}")
        run(server, f"create database {self.name} {self.options}")
        server.close()
        install(self.opened())
        self.session = self.opened()

    def opened(self) -> Any:
        session = connect(self.name)
        self.addCleanup(session.close)
        return session


class Names(Database):
    decoded = f"select bcs_decode_json('payments', 'Payment', '{PAYMENT}')::text"

    def setUp(self) -> None:
        super().setUp()
        run(self.session, "insert into bcs_registries values ('payments', %s)", PAYMENTS)
        self.other = self.opened()

    def test_change_by_another_session(self) -> None:
        self.assertEqual(value(self.other, self.decoded), '{"amount":"7","to":"bob"}')
        run(self.session, "begin")
        run(self.session, "update bcs_registries set registry = %s", OTHER)
        self.assertEqual(value(self.session, self.decoded), '{"cents":"7","to":"bob"}')
        self.assertEqual(value(self.other, self.decoded), '{"amount":"7","to":"bob"}')
        run(self.session, "commit")
        self.assertEqual(value(self.other, self.decoded), '{"cents":"7","to":"bob"}')

    def test_change_within_a_transaction(self) -> None:
        """Of the session that asks, which locks no table in between. Also by a statement that was prepared."""
        run(self.other, f"prepare decoded as {self.decoded}")
        for ask, level in [
            (self.decoded, "read committed"),
            (self.decoded, "repeatable read"),
            ("execute decoded", "read committed"),
        ]:
            run(self.session, "update bcs_registries set registry = %s", PAYMENTS)
            run(self.other, f"begin isolation level {level}")
            self.assertEqual(value(self.other, ask), '{"amount":"7","to":"bob"}')
            run(self.session, "update bcs_registries set registry = %s", OTHER)
            self.assertEqual(value(self.other, ask), '{"cents":"7","to":"bob"}', (ask, level))
            run(self.other, "commit")

    def test_change_that_fails(self) -> None:
        """After a function in the statement has used the new text."""
        body = f"$$ begin return ({self.decoded}); end $$"
        run(self.session, f"create function used() returns text volatile language plpgsql as {body}")
        change = "update bcs_registries set registry = %s returning 1 / (position('cents' in used()) * 0)"
        self.assertEqual(refusal(self.session, change.replace("%s", f"'{OTHER}'"))[0], "22012")
        self.assertEqual(value(self.session, self.decoded), '{"amount":"7","to":"bob"}')

    def test_change_by_replication(self) -> None:
        """Which fires the triggers of rows alone."""
        server = connect("postgres")
        self.addCleanup(server.close)
        run(server, "drop database if exists replica")
        run(server, "create database replica")
        replica = connect("replica")
        install(replica)
        reader = connect("replica")
        run(replica, "insert into bcs_registries values ('payments', %s)", PAYMENTS)
        self.assertEqual(value(reader, self.decoded), '{"amount":"7","to":"bob"}')
        run(self.session, "create publication names for table bcs_registries")
        value(self.session, "select count(*) from pg_create_logical_replication_slot('names', 'pgoutput')")
        source = f"host={os.environ['PGHOST']} user={os.environ['PGUSER']} dbname={self.name}"
        run(
            replica,
            f"""create subscription names connection '{source}'
            publication names with (create_slot = false, slot_name = 'names', copy_data = false)""",
        )
        try:
            run(self.session, "update bcs_registries set registry = %s", OTHER)
            end = time.monotonic() + 30
            while value(reader, "select registry from bcs_registries") != OTHER and time.monotonic() < end:
                time.sleep(0.1)
            self.assertEqual(value(reader, self.decoded), '{"cents":"7","to":"bob"}')
        finally:
            run(replica, "drop subscription names")
            replica.close()
            reader.close()

    def test_older_snapshot(self) -> None:
        """A name has the newest text, as catalogs have, and no older one stays open."""
        run(self.other, "begin isolation level repeatable read")
        value(self.other, "select count(*) from bcs_registries")
        run(self.session, "update bcs_registries set registry = %s", OTHER)
        self.assertEqual(value(self.other, self.decoded), '{"cents":"7","to":"bob"}')
        run(self.other, "commit")
        self.assertEqual(value(self.other, self.decoded), '{"cents":"7","to":"bob"}')

    def test_new_extension(self) -> None:
        value(self.other, self.decoded)
        run(self.session, "drop extension bcs")
        run(self.session, "create extension bcs schema bcs")
        self.assertEqual(refusal(self.other, self.decoded), ("22023", "bcs: no registry is called payments"))

    def test_dump(self) -> None:
        """With the names, an index that uses a text, and a view that uses a name."""
        run(self.session, "create table transfers (bytes bytea)")
        run(self.session, f"insert into transfers values ('{PAYMENT}')")
        run(self.session, "create index by_text on transfers ((bcs_decode(%s, 'Payment', bytes) ->> 'to'))", PAYMENTS)
        run(
            self.session,
            "create view named as select bcs_decode('payments', 'Payment', bytes) ->> 'to' as recipient from transfers",
        )
        dump = subprocess.run(["pg_dump", self.name], check=True, capture_output=True).stdout
        server = connect("postgres")
        run(server, "drop database if exists restored")
        run(server, "create database restored")
        server.close()
        words = ["psql", "--quiet", "--no-psqlrc", "--set", "ON_ERROR_STOP=1", "restored"]
        subprocess.run(words, check=True, input=dump, stdout=subprocess.DEVNULL)
        restored = connect("restored")
        self.addCleanup(restored.close)
        run(restored, "set search_path = public, bcs")
        run(restored, "set enable_seqscan = off")
        found = "select count(*) from transfers where bcs_decode(%s, 'Payment', bytes) ->> 'to' = 'bob'"
        plan = json.dumps(value(restored, "explain (format json) " + found, PAYMENTS))
        self.assertIn("by_text", plan)
        self.assertEqual(value(restored, found, PAYMENTS), 1)
        self.assertEqual(value(restored, "select recipient from named"), "bob")
        self.assertEqual(value(restored, self.decoded), '{"amount":"7","to":"bob"}')


class Cancelling(Database):
    def setUp(self) -> None:
        super().setUp()
        run(self.session, "set bcs.max_nodes = -1")

    def test_timeout(self) -> None:
        run(self.session, "set statement_timeout = 300")
        start = time.monotonic()
        self.assertEqual(refusal(self.session, ENDLESS)[0], "57014")
        self.assertLess(time.monotonic() - start, 20)
        run(self.session, "set statement_timeout = 0")
        self.assertIs(value(self.session, "select bcs_is('{}', '\"U8\"', '\\x07')"), True)

    def test_end_of_session(self) -> None:
        """And of no other one, as a crash would have it."""
        other, pid = self.opened(), value(self.session, "select pg_backend_pid()")
        told: list[tuple[str, str]] = []
        call = threading.Thread(target=lambda: told.append(refusal(self.session, ENDLESS)))
        call.start()
        time.sleep(0.3)
        self.assertIs(value(other, "select pg_terminate_backend(%s, 20000)", pid), True)
        call.join(20)
        self.assertEqual((len(told), self.session.closed != 0), (1, True))
        self.assertEqual(value(other, "select 7"), 7)


class Memory(Database):
    def setUp(self) -> None:
        super().setUp()
        run(self.session, "set bcs.max_nodes = -1")

    def test_want_of_memory(self) -> None:
        """The error reports it, and the session goes on."""
        pid = value(self.session, "select pg_backend_pid()")
        with address_space(pid, process_memory(pid, "VmSize") + (64 << 20)):
            self.assertEqual(refusal(self.session, ENDLESS), ("53200", "out of memory"))
        self.assertEqual(value(self.session, "select pg_backend_pid()"), pid)

    def test_want_of_memory_anywhere(self) -> None:
        """With too little memory a call and the reading of a registry fail, and with enough they are right."""
        call = """select length(bcs_encode_json(%s, 'A', '[' || repeat('true,', 299999) || 'true]', 1000000))"""
        registry = '{"A":{"NEWTYPESTRUCT":{"SEQ":"BOOL"}},"B":{"STRUCT":[%s]}}'
        fields = ",".join(f'{{"field{number}":"U64"}}' for number in range(20000))
        pid = value(self.session, "select pg_backend_pid()")
        refused = 0
        for number in range(24):
            with address_space(pid, process_memory(pid, "VmSize") + (number * 3 << 20)):
                try:
                    self.assertEqual(value(self.session, call, registry % (fields + " " * number)), 300003)
                except psycopg2.errors.OutOfMemory:
                    refused += 1
        self.assertGreater(refused, 0)
        self.assertEqual(value(self.session, call, registry % fields), 300003)
        self.assertEqual(value(self.session, "select pg_backend_pid()"), pid)

    def test_want_of_memory_in_refusals(self) -> None:
        """With too little memory to find the place of a refusal, that is the error. With enough, the place is right."""
        calls = [
            (
                "bcs_is(%s, '{\"TUPLE\":[' || repeat('\"U8\",', 100000) || '7]}', '\\x')",
                "BadShape in the format at /TUPLE/100000",
            ),
            (
                "bcs_explain_with(%s, '\"BYTES\"', '', 'ways', repeat(E'inside .=\"U8\"\n', 20000) || 'inside .=A')",
                "UnknownName in the format at line 20001 of the views",
            ),
        ]
        pid, refused = value(self.session, "select pg_backend_pid()"), 0
        self.assertIs(value(self.session, "select bcs_is('{}', '\"U8\"', '\\x07')"), True)
        for call, told in calls:
            right = "22023", f"bcs: refused: {told}"
            for number in range(24):
                with address_space(pid, process_memory(pid, "VmSize") + (number << 20)):
                    answer = refusal(self.session, "select " + call, "{}" + " " * number)
                self.assertIn(answer, [right, ("53200", "out of memory")])
                refused += answer != right
            self.assertEqual(refusal(self.session, "select " + call, "{}"), right)
        self.assertGreater(refused, 0)
        self.assertEqual(value(self.session, "select pg_backend_pid()"), pid)

    def test_many_calls(self) -> None:
        """A tenth of them are refused. What the server's compiler of expressions allocates isn't measured."""
        calls = """do $$ begin
            perform count(bcs_decode_json(%s, 'Payment', set_byte(%s, 4, n %% 256))) from generate_series(1, %s) as n;
            for n in 1 .. %s loop
                begin
                    perform bcs_decode(%s, 'Payment', substr(%s::bytea, 1, n %% 12));
                    raise exception 'no error';
                exception when invalid_binary_representation then
                end;
            end loop;
        end $$"""
        pid = value(self.session, "select pg_backend_pid()")
        run(self.session, "set jit = off")

        def spent(count: int) -> tuple[int, int]:
            run(self.session, calls, PAYMENTS, PAYMENT, count * 9 // 10, count // 10, PAYMENTS, PAYMENT)
            contexts = value(self.session, "select sum(total_bytes)::bigint from pg_backend_memory_contexts")
            return contexts, process_memory(pid, "RssAnon")

        spent(100000)
        first, last = spent(100000), spent(CALLS)
        contexts, process = last[0] - first[0], last[1] - first[1]
        print(f"sessions: {CALLS} calls, and {contexts} bytes more in contexts, {process} in the process")
        # (the kernel may add a huge page; a block that each call loses is 16 MB)
        self.assertLess(max(contexts, process), 8 << 20)


class Latin1(Database):
    name, options = "latin1", "template template0 encoding 'LATIN1' locale 'C'"

    def test_texts(self) -> None:
        self.assertEqual(bytes(value(self.session, "select bcs_encode('{}', '\"STR\"', '\"é\"')")).hex(), "02c3a9")
        self.assertEqual(bytes(value(self.session, "select bcs_encode_json('{}', '\"STR\"', '\"é\"')")).hex(), "02c3a9")
        self.assertEqual(value(self.session, "select bcs_decode_json('{}', '\"STR\"', '\\x02c3a9')::text"), '"é"')
        self.assertEqual(value(self.session, "select bcs_decode('{}', '\"STR\"', '\\x02c3a9') ->> 0"), "é")
        self.assertEqual(value(self.session, "select bcs_normalise('{}', '\"STR\"', '\"\\u00e9\"')::text"), '"é"')
        self.assertIs(value(self.session, "select bcs_equal('{}', '\"STR\"', '\"\\u00e9\"', '\"é\"')"), True)

    def test_no_such_character(self) -> None:
        self.assertEqual(refusal(self.session, "select bcs_decode_json('{}', '\"STR\"', '\\x03e282ac')")[0], "22P05")
        self.assertEqual(refusal(self.session, "select bcs_decode('{}', '\"STR\"', '\\x03e282ac')")[0], "22P05")
        self.assertEqual(
            bytes(value(self.session, "select bcs_encode_json('{}', '\"STR\"', '\"\\u20ac\"')")).hex(), "03e282ac"
        )
        named = """select bcs_encode_json('{"A":{"STRUCT":[{"\\u20ac":"U8"}]}}', 'A', '{"\\u20ac":256}')"""
        self.assertEqual(refusal(self.session, named), ("22P02", "bcs: refused: BadNumber at /\\u20ac"))

    def test_names(self) -> None:
        registry = '{"Zürich":{"STRUCT":[{"größe":"BOOL"}]}}'
        self.assertEqual(value(self.session, "select bcs_decode(%s, 'Zürich', '\\x01')", registry), {"größe": True})
        told = refusal(self.session, "select bcs_decode(%s, 'Zürich', '\\x02')", registry)
        self.assertEqual(told[0], "22P03")
        self.assertEqual(told[1], 'bcs: refused: BadBool at byte 0, ."gr\\u00f6\\u00dfe"')
        self.assertEqual(
            value(self.session, "select bcs_fault(%s, 'Zürich', '\\x02') ->> 'at'", registry), '."gr\\u00f6\\u00dfe"'
        )
        told = refusal(self.session, "select bcs_encode(%s, 'Zürich', '{\"größe\":7}')", registry)
        self.assertEqual(told, ("22P02", "bcs: refused: BadShape at /gr\\u00f6\\u00dfe"))
        for call, words in [
            ("bcs_part('{}', '\"U8\"', '\\x07', 'größe')", "BadPath in the path at step 1 gr\\u00f6\\u00dfe"),
            ("bcs_is('{}', '\"größe\"', '\\x07')", "BadShape in the format"),
            (
                "bcs_explain_with('{}', '\"BYTES\"', '\\x0107', 'ways', 'inside .größe={\"SEQ\":\"größe\"}')",
                "BadShape in the format at line 1 of the views, /SEQ",
            ),
        ]:
            self.assertEqual(refusal(self.session, "select " + call), ("22023", f"bcs: refused: {words}"))
        run(self.session, "insert into bcs_registries values ('stadt', %s)", registry)
        self.assertEqual(value(self.session, "select bcs_decode('stadt', 'Zürich', '\\x01')"), {"größe": True})


class EucJp(Database):
    name, options = "euc_jp", "template template0 encoding 'EUC_JP' locale 'C'"

    def test_texts(self) -> None:
        self.assertEqual(bytes(value(self.session, "select bcs_encode('{}', '\"STR\"', '\"日\"')")).hex(), "03e697a5")
        self.assertEqual(value(self.session, "select bcs_decode_json('{}', '\"STR\"', '\\x03e697a5')::text"), '"日"')


class SqlAscii(Database):
    """Such a database can contain any bytes: a text that isn't UTF-8 is refused."""

    name, options = "sql_ascii", "template template0 encoding 'SQL_ASCII' locale 'C'"

    def test_texts(self) -> None:
        self.session.set_client_encoding("SQL_ASCII")
        self.assertEqual(
            bytes(value(self.session, "select bcs_encode_json('{}', '\"STR\"', E'\"\\xc3\\xa9\"')")).hex(), "02c3a9"
        )
        decoded = "select bcs_decode_json('{}', '\"STR\"', '\\x02c3a9')::text::bytea"
        self.assertEqual(bytes(value(self.session, decoded)).hex(), "22c3a922")
        self.assertEqual(refusal(self.session, "select bcs_encode_json('{}', '\"STR\"', E'\"\\xff\"')")[0], "22021")


if __name__ == "__main__":
    unittest.main()

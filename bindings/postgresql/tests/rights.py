"""Tests that the owner of a database can't gain rights through the extension.

The owner plants functions, operators and types that the extension might call by mistake, and a superuser then uses the
extension. Nothing that was planted may run, and the extension refuses schemas in which others could plant overloads.
PGHOST and PGUSER name the server.
"""

from __future__ import annotations

import pathlib
import sys
import unittest
from typing import Any

import psycopg2
from sessions import PAYMENT, PAYMENTS, connect, install, refusal, run, value

sys.path.append(str(pathlib.Path(__file__).resolve().parents[2] / "sql"))
from values import cells  # noqa: E402

# Types of the arguments of planted functions: each fits a call of the extension's functions in some way.
SIGNATURES = cells(
    """
    text, text, text | text, text, bytea | text, text, bytea, int4 | text, text, bytea, int8
    text, text, bytea, int4, int4 | text, text, json | text, text, jsonb | json, text, text | json, text, bytea
    json, json, json | jsonb, text, bytea | varchar, varchar, varchar | name, name, name | text, name, bytea
    text, text, text, text | text, text, bytea, text | text, text, bytea, text, int4, int4
    anyelement, anyelement, anyelement | anyelement, text, bytea | anynonarray, anynonarray, bytea | VARIADIC text[]
    text, VARIADIC text[] | regclass, text | text, text | name, text | regclass, unknown_text | text | regclass
    internal | aclitem[]
    """
)
OPERATORS = ["~", "=", "<>", "->>", "||", "~~", "<", "@>"]
OPERANDS = cells(
    """
    text, text | text, varchar | varchar, text | name, text | text, name | text, bpchar | json, text | jsonb, text
    anyelement, anyelement | anyelement, text | text, unknown_text
    """
)
TYPES = ["text", "bytea", "json", "jsonb", "int4", "int8", "bool", "regclass", "trigger", "internal"]

PLANTING = """
create schema evil;
create table evil.ran (what pg_catalog.text);
grant all on schema evil to public;
grant all on evil.ran to public;
create domain evil.unknown_text as pg_catalog.text;
create function evil.gain(what pg_catalog.text) returns boolean language plpgsql as $$ begin
    insert into evil.ran values (what);
    begin
        alter role mallory superuser;
    exception when insufficient_privilege then
    end;
    return true;
end $$;
"""


# Why the extension refuses a schema.
OWNER = "its owner isn't a superuser"
CREATORS = "others than superusers may create objects in it"
FUNCTIONS = "it has functions whose names start with bcs_"
ARGUMENTS = "registry text, format text, bytes bytea, nodes int8 default 1, depth int4 default 1"
GAIN = "$$ begin alter role mallory superuser; return true; end $$"
DROPPING = """do $$ declare planted regprocedure; begin
    for planted in select oid from pg_proc where pronamespace = '{}'::regnamespace and proname like 'bcs\\_%%' loop
        execute format('drop function %%s', planted);
    end loop;
end $$"""


def planted(session: Any, statement: str) -> bool:
    """Whether the server accepts a planted object. It refuses some, such as a function of `internal`."""
    try:
        run(session, statement)
        return True
    except psycopg2.Error:
        return False


def plant(session: Any, names: list[str]) -> int:
    """Returns how many objects were planted. Types come last, since they would hide the types in the other objects."""
    run(session, PLANTING)
    count = 0
    gain = "language plpgsql as $$ begin perform evil.gain('%s'); return true; end $$"
    for schema in ["public", "evil"]:
        run(session, "set search_path = pg_catalog, evil")
        for name in names:
            for types in SIGNATURES:
                head = f'create function {schema}."{name}"({types}) returns boolean '
                count += planted(session, head + gain % f"{name}({types})")
        operate = f"create function {schema}.operate({{}}) returns boolean "
        count += planted(session, operate.format("text, text") + gain % "operate")
        for types in OPERANDS:
            planted(session, operate.format(types) + gain % f"operate({types})")
            for operator in OPERATORS:
                left, right = types.split(", ")
                words = f"function = {schema}.operate, leftarg = {left}, rightarg = {right}"
                count += planted(session, f"create operator {schema}.{operator} ({words})")
        for name in TYPES:
            check = f"check (evil.gain('type {name}'))"
            count += planted(session, f'create domain {schema}."{name}" as pg_catalog.text {check}')
    return count


class Rights(unittest.TestCase):
    """A server with the role `mallory`, who owns a database and no more."""

    def setUp(self) -> None:
        self.server = connect("postgres")
        self.addCleanup(self.server.close)
        self.addCleanup(self.forget)
        self.forget()
        run(self.server, "create role mallory login")
        run(self.server, "create database attacked owner mallory")
        run(self.server, "create database rights")
        before = connect("rights")
        install(before)
        names = (
            "select array_agg(distinct proname::text) from pg_proc, pg_depend where objid = pg_proc.oid "
            "and deptype = 'e' and classid = 'pg_proc'::regclass "
            "and refobjid = (select oid from pg_extension where extname = 'bcs')"
        )
        others = "pg_extension_config_dump int8 int4 text bytea json textregexeq starts_with aclexplode"
        self.names = value(before, names) + others.split()
        before.close()

    def forget(self) -> None:
        for name in ["attacked", "rights"]:
            run(self.server, f"drop database if exists {name}")
        run(self.server, "drop role if exists mallory, keepers, boss")

    def mallory(self) -> Any:
        session = psycopg2.connect(dbname="attacked", user="mallory")
        session.autocommit = True
        self.addCleanup(session.close)
        return session

    def superuser(self) -> Any:
        session = connect("attacked")
        self.addCleanup(session.close)
        return session

    def use(self, schema: str, owner: Any) -> None:
        """What a superuser does, where each argument has its type."""
        session = self.superuser()
        run(session, f"insert into {schema}.bcs_registries values ('payments', %s)", PAYMENTS)
        run(session, f"update {schema}.bcs_registries set registry = registry")
        self.check_harmless(owner)
        typed = "'{}'::pg_catalog.{}".format
        for registry in [typed("payments", "text"), typed(PAYMENTS, "text"), typed(PAYMENTS, "json")]:
            front = f"{registry}, {typed('Payment', 'text')}, "
            limits = f", {typed(1000, 'int8')}, {typed(100, 'int4')})"
            data = typed(PAYMENT, "bytea")
            self.assertIs(value(session, f"select {schema}.bcs_is({front}{data}{limits}"), True)
            self.assertEqual(value(session, f"select {schema}.bcs_scan({front}{data}{limits}"), 12)
            self.assertEqual(
                value(session, f"select {schema}.bcs_decode({front}{data}{limits}"), {"to": "bob", "amount": "7"}
            )
            text = typed('{"to":"bob","amount":7}', "text")
            self.assertEqual(
                bytes(value(session, f"select {schema}.bcs_encode_json({front}{text}{limits}")).hex(), PAYMENT[2:]
            )
        self.assertEqual(refusal(session, f"insert into {schema}.bcs_registries values ('bad', '7')")[0], "23514")
        run(session, f"delete from {schema}.bcs_registries")
        run(session, f"truncate {schema}.bcs_registries")
        run(session, "drop extension bcs")
        self.check_harmless(owner)

    def check_harmless(self, owner: Any) -> None:
        self.assertIs(value(self.server, "select rolsuper from pg_roles where rolname = 'mallory'"), False)
        self.assertEqual(value(owner, "select coalesce(array_agg(distinct what), '{}') from evil.ran"), [])

    def test_planted_objects(self) -> None:
        """Where the search path leads (mallory's schema), and in `public`.

        A superuser who takes such a schema over has to remove all that the extension names, and the rest is harmless.
        """
        owner = self.mallory()
        run(owner, "alter database attacked set search_path = evil, public, pg_catalog")
        count = plant(owner, self.names)
        print(f"rights: {count} objects planted")
        self.assertGreater(count, 500)
        owner = self.mallory()
        run(owner, "set search_path = pg_catalog")
        self.check_refused("create extension bcs", "evil", OWNER)
        for schema in ["evil", "public"]:
            with self.subTest(schema=schema):
                create = f"create extension bcs schema {schema}"
                self.check_refused(create, schema, OWNER)
                run(self.superuser(), f"alter schema {schema} owner to current_user")
                run(self.superuser(), f"grant create on schema {schema} to public")
                self.check_refused(create, schema, CREATORS)
                run(self.superuser(), f"revoke create on schema {schema} from public")
                self.check_refused(create, schema, FUNCTIONS)
                run(owner, DROPPING.format(schema))
                run(self.superuser(), create)
                self.check_harmless(owner)
                self.use(schema, owner)
        run(self.superuser(), "create schema own")
        run(self.superuser(), "create extension bcs schema own")
        self.use("own", owner)
        self.assertIs(value(self.superuser(), "select evil.gain('the test itself'::pg_catalog.text)"), True)
        self.assertIs(value(self.server, "select rolsuper from pg_roles where rolname = 'mallory'"), True)

    def check_refused(self, create: str, schema: str, reason: str) -> None:
        session = self.superuser()
        self.assertEqual(refusal(session, create), ("42P15", f"bcs: the schema {schema} isn't safe: {reason}"))
        self.assertEqual(
            value(session, "select pg_catalog.count(*) from pg_catalog.pg_extension where extname = 'bcs'"), 0
        )

    def test_owner_of_the_schema(self) -> None:
        """Renames it, creates another one with its name, and the superuser's next call runs a planted function."""
        for schema, made in [("bcs", "create schema bcs"), ("public", "select 7")]:
            with self.subTest(schema=schema):
                owner, session = self.mallory(), self.superuser()
                run(owner, made)
                told = refusal(session, f"create extension bcs schema {schema}")
                run(owner, f"alter schema {schema} rename to renamed_{schema}")
                run(owner, f"create schema {schema}")
                run(owner, f"create function {schema}.bcs_is({ARGUMENTS}) returns boolean language plpgsql as {GAIN}")
                if told == ("", ""):
                    value(session, f"select {schema}.bcs_is('{{}}'::text, '\"U8\"'::text, ''::bytea, 1::int8, 1)")
                self.assertIs(value(self.server, "select rolsuper from pg_roles where rolname = 'mallory'"), False)
                self.assertEqual(told, ("42P15", f"bcs: the schema {schema} isn't safe: {OWNER}"))

    def test_schemas(self) -> None:
        """Of a role without login, with rights for others, and with functions from before. Superusers may share one."""
        session = self.superuser()
        run(session, "create role keepers")
        run(session, "create role boss superuser")
        for made, reason in [
            ("create schema {} authorization keepers", OWNER),
            ("create schema {}; grant all on schema {0} to mallory", CREATORS),
            ("create schema {}; grant create on schema {0} to keepers", CREATORS),
            ("create schema {}; grant create on schema {0} to public", CREATORS),
            ("create schema {}; grant create on schema {0} to boss, pg_database_owner", CREATORS),
            (f"create schema {{}}; create function {{0}}.bcs_is({ARGUMENTS}) returns boolean return true", FUNCTIONS),
            ("create schema {}; create function {0}.bcs_other() returns boolean return true", FUNCTIONS),
        ]:
            run(session, made.replace("{}", "{0}").format("tried"))
            self.check_refused("create extension bcs schema tried", "tried", reason)
            run(session, "drop schema tried cascade")
        run(session, "create schema shared authorization boss")
        run(session, "grant create on schema shared to postgres")
        run(session, "grant usage on schema shared to public")
        run(session, "create extension bcs schema shared")
        self.assertIs(value(self.mallory(), "select shared.bcs_is('{}', '\"U8\"', '\\x07')"), True)
        run(session, "drop extension bcs")
        run(session, "drop schema shared")

    def test_objects_of_the_extension(self) -> None:
        """The owner of the database can neither replace them, nor drop or move them, nor write to the table."""
        session = self.superuser()
        install(session)
        run(session, "insert into bcs_registries values ('payments', %s)", PAYMENTS)
        owner = self.mallory()
        for statement in [
            f"create or replace function bcs.bcs_is({ARGUMENTS}) returns boolean language sql as 'select true'",
            "create function bcs.bcs_is(text, text, text) returns boolean language sql as 'select true'",
            "create table bcs.mine ()",
            "alter schema bcs rename to other",
            "alter schema bcs owner to mallory",
            "drop schema bcs cascade",
            "alter extension bcs set schema public",
            "drop extension bcs",
            "drop function bcs_is(text, text, bytea, int8, int4)",
            "alter function bcs_is(text, text, bytea, int8, int4) rename to other",
            "alter function bcs_is(text, text, bytea, int8, int4) set schema public",
            "alter function bcs_is(text, text, bytea, int8, int4) immutable",
            "insert into bcs_registries values ('other', '{}')",
            "update bcs_registries set registry = '{}'",
            "create trigger mine after insert on bcs_registries execute function bcs_registries_changed()",
            "create rule mine as on insert to bcs_registries do instead nothing",
            "alter table bcs_registries disable trigger changed",
        ]:
            self.assertEqual((statement, refusal(owner, statement)[0]), (statement, "42501"))
        self.assertEqual(refusal(session, "alter extension bcs set schema public")[0], "0A000")

    def test_setting(self) -> None:
        """Only a superuser can raise a setting, also before the library is loaded, and for a role or a database."""
        install(self.superuser())
        bomb = """select bcs_scan('{}', '{"SEQ":"UNIT"}', '\\xffffff07', 4294967295)"""
        for statement in [
            "set bcs.max_nodes = -1",
            "alter role mallory set bcs.max_nodes = -1",
            "alter database attacked set bcs.max_nodes = -1",
            "select set_config('bcs.max_nodes', '-1', false)",
        ]:
            session = self.mallory()
            refusal(session, statement)
            self.assertEqual((statement, refusal(session, bomb)[0]), (statement, "54000"))
            self.assertEqual((statement, refusal(session, statement)[0]), (statement, "42501"))
            again = self.mallory()
            self.assertEqual((statement, refusal(again, bomb)[0]), (statement, "54000"))
        for statement in [
            "set bcs.registry_cache = '1GB'",
            "alter role mallory set bcs.registry_cache = '1GB'",
            "alter database attacked set bcs.registry_cache = '1GB'",
        ]:
            session = self.mallory()
            refusal(session, statement)
            refusal(session, bomb)
            self.assertEqual((statement, value(session, "show bcs.registry_cache")), (statement, "32MB"))
            self.assertEqual((statement, refusal(session, statement)[0]), (statement, "42501"))
        session = self.superuser()
        run(session, "set bcs.max_nodes = -1")
        self.assertEqual(value(session, bomb), 4)


if __name__ == "__main__":
    unittest.main()

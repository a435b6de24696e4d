\pset format unaligned
\pset tuples_only on
SET search_path = public, bcs;
INSERT INTO bcs_registries VALUES ('payments', payments());
SELECT bcs_decode('payments', 'Payment', '\x03626f620700000000000000');
SELECT bcs_decode(name, 'Payment', '\x03626f620700000000000000') FROM bcs_registries;
SELECT told($$bcs_is('nobody', 'Payment', '\x00')$$);
-- A name is in ASCII, and cut.
SELECT bcs_is('nö"', 'Payment', '\x00');
SELECT replace(told($$bcs_is(repeat('b', 1000000), 'Payment', '\x00')$$), repeat('b', 200), '..');
-- The name of a file in place of a registry.
SELECT bcs_is('/tmp/aptos_registry.json', '"U8"', '\x07');
SELECT bcs_is(' {', '"U8"', '\x07');
-- What is no registry, or is no name, isn't kept.
INSERT INTO bcs_registries VALUES ('bad', '{"A":{"STRUCT":7}}');
INSERT INTO bcs_registries VALUES ('other', 'payments');
INSERT INTO bcs_registries VALUES ('{}', '{}');
INSERT INTO bcs_registries VALUES ('payments', '{}');
-- A name has the newest text, also in the transaction that changes it, and after one that is rolled back.
BEGIN;
UPDATE bcs_registries SET registry = '{"Payment":{"STRUCT":[{"to":"STR"},{"cents":"U64"}]}}';
SELECT bcs_decode('payments', 'Payment', '\x03626f620700000000000000');
SAVEPOINT before;
DELETE FROM bcs_registries;
SELECT told($$bcs_is('payments', 'Payment', '\x00')$$);
ROLLBACK TO before;
SELECT bcs_decode('payments', 'Payment', '\x03626f620700000000000000');
ROLLBACK;
SELECT bcs_decode('payments', 'Payment', '\x03626f620700000000000000');
-- More registries than are kept open, which come from a table.
INSERT INTO bcs_registries
    SELECT 'r' || n, format('{"A":{"STRUCT":[{"x%s":"U8"}]}}', n) FROM generate_series(1, 40) AS n;
SELECT count(*) FROM generate_series(1, 2000) AS turn, LATERAL (SELECT 1 + turn * 7 % 40 AS n) AS which
    WHERE bcs_decode_json('r' || n, 'A', '\x07')::text = format('{"x%s":7}', n);
SELECT count(*) FROM generate_series(1, 2000) AS turn, LATERAL (SELECT 1 + turn * 7 % 20 AS n) AS which
    WHERE bcs_decode_json(format('{"A":{"STRUCT":[{"x%s":"U8"}]}}', n), 'A', '\x07')::text = format('{"x%s":7}', n);
SELECT count(*) FROM pg_backend_memory_contexts WHERE name = 'bcs registry';
-- One whose text stands apart from its row, since it is long and can't be compressed.
INSERT INTO bcs_registries
    SELECT 'long', '{"A":{"STRUCT":[' || string_agg('{"' || md5(n::text) || '":"U8"}', ',' ORDER BY n) || ']}}'
    FROM generate_series(1, 5000) AS n;
SELECT bcs_decode('long', 'A', decode(repeat('07', 5000), 'hex')) ->> md5('4999');
-- Anyone may use a registry, and its owner alone changes it.
CREATE ROLE reader;
SET ROLE reader;
SELECT bcs_is('payments', 'Payment', '\x03626f620700000000000000');
DELETE FROM bcs_registries;
RESET ROLE;
DROP ROLE reader;
TRUNCATE bcs_registries;
SELECT told($$bcs_is('payments', 'Payment', '\x00')$$);
-- In another schema a name is found as well, whatever the search path is.
SET client_min_messages = warning;
DROP EXTENSION bcs CASCADE;
CREATE SCHEMA elsewhere;
CREATE EXTENSION bcs SCHEMA elsewhere;
INSERT INTO elsewhere.bcs_registries VALUES ('payments', payments());
SELECT elsewhere.bcs_is('payments', 'Payment', '\x03626f620700000000000000');
DROP EXTENSION bcs;

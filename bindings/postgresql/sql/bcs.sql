\pset format unaligned
\pset tuples_only on
-- As README.md installs it.
CREATE SCHEMA bcs;
GRANT USAGE ON SCHEMA bcs TO public;
CREATE EXTENSION bcs SCHEMA bcs;
SET search_path = public, bcs;
-- What a statement answers: a value, or the SQLSTATE and the message of its error.
CREATE FUNCTION told(statement text) RETURNS text LANGUAGE plpgsql AS $$
DECLARE
    answer text;
BEGIN
    EXECUTE 'select (' || statement || ')::text' INTO answer;
    RETURN coalesce(answer, 'null');
EXCEPTION WHEN OTHERS THEN
    RETURN SQLSTATE || ' ' || SQLERRM;
END $$;
-- The registry of the first example: {"to":"bob","amount":7} is 03626f620700000000000000.
CREATE FUNCTION payments() RETURNS text IMMUTABLE PARALLEL SAFE LANGUAGE sql AS
    $$ SELECT '{"Payment":{"STRUCT":[{"to":"STR"},{"amount":"U64"}]}}'::text $$;
SELECT bcs_encode(payments(), 'Payment', '{"to":"bob","amount":7}');
SELECT bcs_encode(payments(), 'Payment', jsonb_build_object('amount', 7, 'to', 'bob'));
SELECT bcs_encode_json(payments(), 'Payment', '{"to":"bob","amount":7}'::json);
SELECT bcs_decode(payments(), 'Payment', '\x03626f620700000000000000');
SELECT bcs_normalise(payments(), 'Payment', '{"to":"bob", "amount":7}'::json);
SELECT bcs_equal(payments(), 'Payment', '{"to":"bob","amount":7}'::json, '{"to":"bob","amount":8}'::json);
-- Formats that are names of containers, and a form.
SELECT told($$bcs_is('{}', 'Payment', '\x07')$$);
SELECT told($$bcs_is('{}', '', '\x07')$$);
SELECT told($$bcs_explain('{}', '"U8"', '\x07', 'jsonl')$$);
-- What was expected is the detail of the error.
SELECT bcs_encode('{"A":{"STRUCT":[{"a/~":{"SEQ":"BYTES"}}]}}', 'A', '{"a/~":["00","0"]}');
-- In a definition ~ is a character like others.
SELECT bcs_is('{"a~é/\u0000":{"STRUCT":[{"\n":{"TYPENAME":"Z"}}]}}', '"U8"', '\x07');
-- A name is cut at 200 signs, and so long a pointer has more room than at first.
SELECT replace(told(format($$bcs_encode_json('{"A":{"STRUCT":[{"%1$s":"U8"}]}}', 'A', '{"%1$s":true}')$$, repeat('~', 201))), repeat('~0', 200), '..');
-- So are a format, a path and views. The rows have more of these.
SELECT bcs_is('{}', '{"SEQ":7}', '\x07');
SELECT bcs_is('{}', E'a\né', '\x07');
SELECT bcs_part('{}', '"U8"', '\x07', 'inner//2');
SELECT bcs_part_place('{}', '"U8"', '\x07', E'inner/~1é\n');
SELECT bcs_content_by_name('{}', '"U8"', '\x07', 'x');
SELECT bcs_part_by_pointer('{}', '"U8"', '\x07', 'x');
SELECT bcs_explain_with('{}', '{"SEQ":7}', '\x0107', 'ways', 'inside .=A');
SELECT bcs_explain_with('{}', '"BYTES"', '\x0107', 'ways', 'inside .=A');
SELECT bcs_explain_with('{}', '"BYTES"', '\x0107', 'ways', E'\ninside .="U8"\ninside ."=\\"="={"SEQ":7}\ninside .="U8"');
SELECT bcs_explain_with('{}', '"BYTES"', '\x0107', 'ways', E'inside .="U8"\ncall .=f');
SELECT bcs_explain_with('{}', '"BYTES"', '\x0107', 'ways', 'u256 é');
SELECT bcs_explain_with('{}', '"BYTES"', '\x0107', 'ways', 'inside .');
-- A long step is cut, too.
SELECT replace(told(format($$bcs_part('{}', '"U8"', '\x07', 'inner/%s')$$, repeat('b', 194))), repeat('b', 193), '..');
-- And what was expected in bytes.
SELECT bcs_decode('{}', '{"SEQ":"BOOL"}', '\x0102');
-- So are the labels of a field path.
SELECT bcs_decode(format('{"A":{"STRUCT":[{"%s":{"SEQ":"BOOL"}}]}}', repeat('é', 100000)), 'A', '\x0105');
-- The names of containers are any texts.
SELECT bcs_decode(format('{%s:{"NEWTYPESTRUCT":"U8"}}', to_json(name)), name, '\x07')
    FROM (VALUES ('a"b'), (E'a\\b'), (E'a\nb'), (E'a\x01'), ('é'), (' '), ('[')) AS names (name);
-- In constraints, generated columns and indexes.
CREATE TABLE transfers (
    id serial PRIMARY KEY,
    bytes bytea CHECK (bcs_is('{"Payment":{"STRUCT":[{"to":"STR"},{"amount":"U64"}]}}', 'Payment', bytes)),
    recipient text GENERATED ALWAYS AS (bcs_decode(payments(), 'Payment', bytes) ->> 'to') STORED
);
INSERT INTO transfers (bytes)
    SELECT bcs_encode(payments(), 'Payment', jsonb_build_object('to', 'p' || n, 'amount', n)) FROM generate_series(1, 5000) AS n;
INSERT INTO transfers (bytes) VALUES ('\x00');
SELECT recipient FROM transfers WHERE id = 77;
CREATE INDEX by_amount ON transfers ((bcs_decode(payments(), 'Payment', bytes) ->> 'amount'));
ANALYZE transfers;
EXPLAIN (COSTS OFF) SELECT id FROM transfers WHERE bcs_decode(payments(), 'Payment', bytes) ->> 'amount' = '1234';
SELECT id FROM transfers WHERE bcs_decode(payments(), 'Payment', bytes) ->> 'amount' = '1234';
-- In parallel workers.
SET parallel_setup_cost = 0;
SET parallel_tuple_cost = 0;
SET min_parallel_table_scan_size = 0;
SET max_parallel_workers_per_gather = 2;
EXPLAIN (COSTS OFF) SELECT sum((bcs_decode(payments(), 'Payment', bytes) ->> 'amount')::int) FROM transfers;
SELECT sum((bcs_decode(payments(), 'Payment', bytes) ->> 'amount')::int), 5000 * 5001 / 2 AS wanted FROM transfers;

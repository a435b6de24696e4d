\pset format unaligned
\pset tuples_only on
-- A registry's text is of the type json, or a constant that isn't a name: such calls are immutable. Others are stable.
CREATE EXTENSION bcs SCHEMA bcs;
SET search_path = public, bcs;
SELECT proargtypes[0]::regtype AS registry, provolatile, proisstrict, proparallel, pg_get_expr(proargdefaults, 0), count(*) FROM pg_proc
    WHERE proname LIKE 'bcs\_%' AND pronargs > 3 GROUP BY 1, 2, 3, 4, 5 ORDER BY 1, 5;
INSERT INTO bcs_registries VALUES ('payments', payments());
CREATE TABLE payments (id serial PRIMARY KEY, bytes bytea, registry json);
INSERT INTO payments (bytes, registry)
    SELECT bcs_encode('payments', 'Payment', jsonb_build_object('to', 'p' || n, 'amount', n)), payments()::json
    FROM generate_series(1, 2000) AS n;
-- An index on a name would keep what older texts of the name gave, so the server refuses it.
CREATE INDEX by_name ON payments ((bcs_decode('payments', 'Payment', bytes) ->> 'to'));
CREATE INDEX by_name ON payments ((bcs_is('payments', 'Payment', bytes)));
CREATE TABLE by_name (bytes bytea, recipient text GENERATED ALWAYS AS (bcs_decode('payments', 'Payment', bytes) ->> 'to') STORED);
-- A text that isn't constant may be a name.
CREATE INDEX by_column ON payments ((bcs_decode(registry::text, 'Payment', bytes) ->> 'to'));
-- By the registry's text: untyped, of the type json, from an immutable function, from a column, and with named arguments.
CREATE INDEX by_text ON payments ((bcs_decode('{"Payment":{"STRUCT":[{"to":"STR"},{"amount":"U64"}]}}', 'Payment', bytes) ->> 'to'));
CREATE INDEX by_json ON payments ((bcs_decode_json('{"Payment":{"STRUCT":[{"to":"STR"},{"amount":"U64"}]}}'::json, 'Payment', bytes) ->> 'to'));
CREATE INDEX by_function ON payments ((bcs_part(payments(), 'Payment', bytes, 'inner/1')));
CREATE INDEX by_column ON payments ((bcs_decode(registry, 'Payment', bytes) ->> 'to'));
CREATE INDEX by_notation ON payments ((bcs_scan(bytes => bytes, format => 'Payment', registry => payments())));
CREATE TABLE recipients (
    bytes bytea,
    recipient text GENERATED ALWAYS AS
        (bcs_decode('{"Payment":{"STRUCT":[{"to":"STR"},{"amount":"U64"}]}}', 'Payment', bytes) ->> 'to') STORED
);
INSERT INTO recipients SELECT bytes FROM payments;
ANALYZE payments;
-- All of them stay right when the name gets another text.
PREPARE decoded AS SELECT bcs_decode_json('payments', 'Payment', '\x03626f620700000000000000');
PREPARE judged AS SELECT bcs_is('payments', 'Payment', '\x03626f620700000000000000');
SET plan_cache_mode = force_generic_plan;
EXECUTE decoded;
EXECUTE judged;
UPDATE bcs_registries SET registry = '{"Payment":{"STRUCT":[{"from":"STR"},{"amount":"U32"}]}}';
EXECUTE decoded;
EXECUTE judged;
UPDATE bcs_registries SET registry = '{"Payment":{"STRUCT":[{"from":"STR"},{"amount":"U64"}]}}';
EXECUTE decoded;
EXECUTE judged;
SET enable_seqscan = off;
EXPLAIN (COSTS OFF) SELECT id FROM payments
    WHERE bcs_decode('{"Payment":{"STRUCT":[{"to":"STR"},{"amount":"U64"}]}}', 'Payment', bytes) ->> 'to' = 'p77';
SELECT id FROM payments
    WHERE bcs_decode('{"Payment":{"STRUCT":[{"to":"STR"},{"amount":"U64"}]}}', 'Payment', bytes) ->> 'to' = 'p77';
SELECT id FROM payments WHERE bcs_decode_json(payments(), 'Payment', bytes) ->> 'to' = 'p78';
SELECT id FROM payments WHERE bcs_decode(registry, 'Payment', bytes) ->> 'to' = 'p79';
SELECT count(*) FROM payments WHERE bcs_decode('payments', 'Payment', bytes) ->> 'from' = 'p77';
SELECT count(*) FROM payments WHERE bcs_decode('payments', 'Payment', bytes) ->> 'to' = 'p77';
SELECT count(*) FROM recipients WHERE recipient = 'p77';
-- PL/pgSQL keeps an expression from call to call, also where the registry is another one.
DO $$
DECLARE
    registry text;
BEGIN
    FOREACH registry IN ARRAY array['payments', '{"Payment":{"STRUCT":[{"x":"STR"},{"y":"U64"}]}}', 'payments', payments()] LOOP
        RAISE NOTICE '% %', bcs_decode(registry, 'Payment', '\x03626f620700000000000000'),
            bcs_is(registry, 'Payment', '\x03626f620700000000000000');
    END LOOP;
    FOREACH registry IN ARRAY array['{"A":{"NEWTYPESTRUCT":"U8"}}', '{"A":{"NEWTYPESTRUCT":"U16"}}', '{"A":{"NEWTYPESTRUCT":"U8"}}'] LOOP
        RAISE NOTICE '% %', bcs_encode(registry, 'A', '7'), bcs_encode(registry::json, 'A', '7');
    END LOOP;
END $$;
PREPARE either(text) AS SELECT bcs_encode($1, 'A', '7');
EXECUTE either('{"A":{"NEWTYPESTRUCT":"U8"}}');
EXECUTE either('{"A":{"NEWTYPESTRUCT":"U16"}}');
-- A registry of the type json is never a name, also where its JSON begins with a letter.
INSERT INTO bcs_registries VALUES ('true', '{}');
SELECT bcs_is('true', '"U8"', '\x07');
SELECT bcs_is('true'::json, '"U8"', '\x07');
SELECT bcs_is('"payments"'::json, '"U8"', '\x07');
-- jsonb drops repeated names, so a registry can't have that type.
SELECT bcs_is('{}'::jsonb, '"U8"', '\x07');

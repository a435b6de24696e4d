\pset format unaligned
\pset tuples_only on
SET search_path = public, bcs;
-- Nodes: five bytes can announce two billion of them.
SELECT told($$bcs_decode('{}', '{"SEQ":"UNIT"}', '\xffffffff07')$$);
SELECT told($$bcs_decode('{}', '{"SEQ":"UNIT"}', '\xffffffff07', 1000)$$);
SELECT bcs_is('{}', '{"SEQ":"UNIT"}', '\xffffffff07'), bcs_fault('{}', '{"SEQ":"UNIT"}', '\xffffffff07', 10) ->> 'refused';
SELECT told($$bcs_encode('{}', '{"SEQ":"BOOL"}', '[true]', 1)$$);
SELECT told($$bcs_is('{}', '"U8"', '\x07', -1)$$), told($$bcs_is('{}', '"U8"', '\x07', 4294967296)$$);
SELECT told($$bcs_is('{}', '"U8"', '\x07', 1, -1)$$), told($$bcs_is('{}', '"U8"', '\x07', 1, 501)$$);
-- What to do about a limit: of the call, of the setting, or of both.
SELECT bcs_scan('{}', '{"TUPLE":["U8","U8"]}', '\x0102', 2);
SELECT bcs_encode_json('{}', '{"SEQ":"U8"}', '[1,2,3]', 3);
SELECT bcs_scan('{}', '{"SEQ":"UNIT"}', '\xffffffff07');
SELECT bcs_scan('{}', '{"SEQ":"UNIT"}', '\xffffffff07', 4294967295);
SELECT bcs_scan('{"L":{"NEWTYPESTRUCT":{"OPTION":{"TYPENAME":"L"}}}}', 'L', '\x010100', depth => 1);
-- Pieces that stop inside a byte string have no detail. (The nodes are a list, the byte string, an array, and 6247 bytes.)
SELECT bcs_explain_with('{}', '{"SEQ":"BYTES"}', ('\x01808002' || repeat('00', 32768))::bytea, 'ways', 'inside [0]={"TUPLEARRAY":{"CONTENT":"U8","SIZE":32768}}', 50000);
-- A length of a gigabyte that isn't there.
SELECT told($$bcs_decode('{}', '"BYTES"', '\x8080808004')$$);
-- Depth: a list of 100 links, and of one more. The server looks at its stack before.
CREATE FUNCTION links() RETURNS text IMMUTABLE PARALLEL SAFE LANGUAGE sql AS
    $$ SELECT '{"L":{"NEWTYPESTRUCT":{"OPTION":{"TYPENAME":"L"}}}}'::text $$;
SELECT bcs_is(links(), 'L', decode(repeat('01', 99) || '00', 'hex')), bcs_is(links(), 'L', decode(repeat('01', 100) || '00', 'hex'));
SELECT regexp_replace(told($$bcs_decode(links(), 'L', decode(repeat('01', 100000), 'hex'))$$), '[?]+', '..');
SELECT told($$bcs_is(links(), 'L', decode(repeat('01', 499) || '00', 'hex'), 1000, 500)$$);
SET max_stack_depth = '7MB';
SELECT bcs_is(links(), 'L', decode(repeat('01', 499) || '00', 'hex'), 1000, 500);
SELECT told($$bcs_decode(links(), 'L', decode(repeat('01', 299) || '00', 'hex'), 1000, 500)$$);
-- There is no larger depth than 500, nor a setting for how deep JSON nests.
CREATE FUNCTION hint(statement text) RETURNS text LANGUAGE plpgsql AS $$
DECLARE
    hint text;
BEGIN
    EXECUTE 'select (' || statement || ')::text';
    RETURN 'no error';
EXCEPTION WHEN OTHERS THEN
    GET STACKED DIAGNOSTICS hint = PG_EXCEPTION_HINT;
    RETURN SQLSTATE || ' ' || hint;
END $$;
SELECT hint($$bcs_decode(links(), 'L', decode(repeat('01', 501), 'hex'), 1000, 499)$$);
SELECT hint($$bcs_decode(links(), 'L', decode(repeat('01', 501), 'hex'), 1000, 500)$$);
SELECT hint($$bcs_decode(links(), 'L', decode(repeat('01', 299) || '00', 'hex'), 1000, 500)$$);
-- With formats of as many levels as there may be, each with a map, a container takes the most of the stack.
CREATE FUNCTION widest() RETURNS text IMMUTABLE LANGUAGE sql AS
    $$ SELECT '{"L":{"STRUCT":[{"a":' || repeat('{"MAP":{"KEY":"U8","VALUE":', 30) || '{"OPTION":{"TYPENAME":"L"}}'
        || repeat('}}', 30) || '}]}}' $$;
CREATE FUNCTION deepest(depth int) RETURNS bytea IMMUTABLE LANGUAGE sql AS
    $$ SELECT decode(repeat(repeat('0107', 30) || '01', depth - 1) || repeat('0107', 30) || '00', 'hex') $$;
SELECT bcs_is(widest(), 'L', deepest(500), 1000000, 500);
SELECT bcs_part(widest(), 'L', deepest(500), '.', 1000000, 500) = deepest(500);
RESET max_stack_depth;
SELECT bcs_is(widest(), 'L', deepest(100));
-- A call deep in the stack: an error, and no crash.
CREATE FUNCTION deeper(levels int) RETURNS boolean LANGUAGE plpgsql AS $$
BEGIN
    IF levels = 0 THEN
        RETURN bcs_is(widest(), 'L', deepest(100 + levels));
    END IF;
    RETURN deeper(levels - 1);
END $$;
DO $$
BEGIN
    FOR tens IN 1 .. 1000 LOOP
        PERFORM deeper(10 * tens);
    END LOOP;
EXCEPTION WHEN statement_too_complex THEN
    RAISE NOTICE 'refused as %: %', SQLSTATE, SQLERRM;
END $$;
-- Texts that nest deep.
SELECT told($$bcs_encode_json('{}', '"U8"', repeat('[', 100000) || repeat(']', 100000))$$);
SELECT told($$bcs_is(repeat('{"A":', 100000), '"U8"', '\x07')$$);
SELECT told($$bcs_is('{}', repeat('{"SEQ":', 100000), '\x07')$$);
SELECT told($$bcs_part('{}', '"U8"', '\x07', repeat('inner/', 100000) || 'inner')$$);
-- Numbers of many digits, which jsonb holds in a few bytes, are refused like others that are out of range.
CREATE FUNCTION detail(statement text) RETURNS text LANGUAGE plpgsql AS $$
DECLARE
    detail text;
BEGIN
    EXECUTE statement;
    RETURN 'no error';
EXCEPTION WHEN OTHERS THEN
    GET STACKED DIAGNOSTICS detail = PG_EXCEPTION_DETAIL;
    RETURN SQLSTATE || ' ' || SQLERRM || ': ' || regexp_replace(detail, '(\d)\1{99}\1*', '\1..', 'g');
END $$;
SELECT left(number, 12), detail(format($$SELECT bcs_encode('{}', '{"TUPLE":["U8","U64"]}', '[7, %s]')$$, number)) FROM (VALUES
    ('1e19'), ('1e20'), ('-1e255'), ('1e256'), ('-1e256'), ('1e131071'), ('-3e131071'), ('12' || repeat('0', 300) || '.5'),
    ('1.0'), ('1e-256'), ('1e-257'), ('-1e-16383'), (repeat('1', 1000)), ('-0.' || repeat('1', 1000))) AS numbers (number);
SELECT detail($$SELECT bcs_encode('{}', '"U64"', '1e131071')$$), detail($$SELECT bcs_encode('{}', '"BOOL"', '1e131071')$$);
-- All else in jsonb is encoded like its text.
CREATE FUNCTION mixed() RETURNS jsonb IMMUTABLE LANGUAGE sql AS
    $$ SELECT '{"a": [], "b": [[], [1, 20], [-0]], "é\"\\ ": {"some": {"b": false, "c": "\n\u0001\"é"}}, "n": {"some": null}, "u": null}'::jsonb $$;
CREATE FUNCTION of_mixed() RETURNS text IMMUTABLE LANGUAGE sql AS
    $$ SELECT '{"M":{"STRUCT":[{"a":{"SEQ":"U8"}},{"b":{"SEQ":{"SEQ":"U8"}}},{"é\"\\ ":{"OPTION":{"TYPENAME":"N"}}},{"n":{"OPTION":"UNIT"}},{"u":"UNIT"}]},'
        '"N":{"STRUCT":[{"b":"BOOL"},{"c":"STR"}]}}' $$;
SELECT bcs_encode(of_mixed(), 'M', mixed()), bcs_encode(of_mixed(), 'M', mixed()) = bcs_encode_json(of_mixed(), 'M', mixed()::text);
SELECT bcs_encode('{}', '{"OPTION":"UNIT"}', 'null'), bcs_encode('{}', '"BOOL"', 'true'), bcs_encode('{}', '"STR"', '"a"'), bcs_encode('{}', '"U8"', '7e0');
-- The character U+0000, which jsonb can't hold.
SELECT told($$bcs_decode('{}', '"STR"', '\x03610062')$$);
-- A value of some megabytes.
SELECT length(bcs_decode_json('{}', '"BYTES"', '\x80808002'::bytea || decode(repeat('ab', 4194304), 'hex'))::text);

\pset format unaligned
\pset tuples_only on
SET search_path = public, bcs;
-- The registry for types of Move modules, from json or text, and notes about it. More of them are rows of tests/rows/modules.py.
SELECT bcs_registry_of_modules('[]', ARRAY['vector<u8>', 'u8']);
SELECT bcs_registry_of_modules('[]'::json, '{}');
SELECT bcs_notes_of_modules('[]', ARRAY['0x01::string::String']);
SELECT bcs_notes_of_modules('[]'::json, ARRAY['u8']) IS NULL, bcs_registry_of_modules(NULL, ARRAY['u8']) IS NULL;
SELECT bcs_decode_json(bcs_registry_of_modules('[]', ARRAY['vector<u16>']), 'vector<u16>', '\x010700');
-- Where modules are refused, or a type.
SELECT bcs_notes_of_modules('[]', ARRAY['u8', 'signer']);
SELECT bcs_registry_of_modules('[]', ARRAY['u8', '']);
SELECT bcs_registry_of_modules('[]', ARRAY[E'u8\nu16']);
-- What isn't a list of texts.
SELECT told($$bcs_registry_of_modules('[]', ARRAY['u8', NULL])$$);
SELECT told($$bcs_registry_of_modules('[]', ARRAY[['u8'], ['u16']])$$);
-- In an index, since the arguments alone decide the answer.
CREATE TABLE packages (modules json);
CREATE INDEX by_registry ON packages ((bcs_registry_of_modules(modules, ARRAY['u8'])::text));
-- JSON that nests deep.
SELECT told($$bcs_registry_of_modules(repeat('[', 100000), ARRAY['u8'])$$);

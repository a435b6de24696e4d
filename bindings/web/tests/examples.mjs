// The example of the README, and what package.json says. BCS_WASM names the module.
import assert from 'node:assert/strict';
import { readFileSync } from 'node:fs';
import test from 'node:test';
import { load } from '../bcs.mjs';
import { hexOf } from '../hex.mjs';

const bcs = await load(readFileSync(process.env.BCS_WASM));

test('the example of the README', () => {
  const registry = bcs.registry('{"Payment":{"STRUCT":[{"to":"STR"},{"amount":"U64"}]}}');
  const bytes = registry.encode('Payment', { to: 'bob', amount: 7n });
  assert.equal(hexOf(bytes), '03626f620700000000000000');
  assert.deepEqual(registry.decode('Payment', bytes), { to: 'bob', amount: 7n });
  assert.equal(registry.decodeText('Payment', bytes), '{"amount":"7","to":"bob"}');
  assert.equal(registry.explain('Payment', bytes).length, 4);
  assert.throws(() => registry.decode('Payment', bytes.slice(0, 5)), { message: 'refused: EndOfInput at byte 5, .amount: expected U64, found the end of the input' });
});

test('package.json asks for the Node that the documents name', () => {
  const at = (name) => readFileSync(new URL(`../${name}`, import.meta.url), 'utf8');
  const [, least] = /with Node (\d+) or later/.exec(at('../../README.md'));
  assert.equal(JSON.parse(at('package.json')).engines.node, `>=${least}`);
  assert.ok(at('test.sh').includes(`[ "$version" -ge ${least} ]`));
});

// Questions in the memory of the module: their numbers and layout are those of bcs.h, and a refusal comes with its message. BCS_WASM
// names the module.
import assert from 'node:assert/strict';
import { readFileSync } from 'node:fs';
import test from 'node:test';
import { load } from '../bcs.mjs';
import { ANSWER, ANSWER_SIZE, CALL, FORMS, NOTATIONS, QUESTION, QUESTION_SIZE, STATUSES, WITH_NOTES } from '../question.mjs';

const HEADER = readFileSync(new URL('../../c/include/bcs.h', import.meta.url), 'utf8').replace(/\/\*.*?\*\//gs, '');
const module = await WebAssembly.compile(readFileSync(process.env.BCS_WASM));
const SIZES = { uint32_t: 4, uint64_t: 8, size_t: 8 };

/** A name as C has it: `toBcs` is `to_bcs`. */
const inC = (name) => name.replace(/[A-Z]/g, (letter) => `_${letter.toLowerCase()}`);

/** The numbers of an enum of the header, by their names in lower case and without `BCS_`. */
function numbersOf(name) {
  const [, body] = new RegExp(`enum ${name} \\{(.*?)\\};`, 's').exec(HEADER);
  const constants = Array.from(body.matchAll(/BCS_(\w+) = (\d+)/g), ([, constant, number]) => [constant.toLowerCase(), Number(number)]);
  assert.ok(constants.length > 0, name);
  return Object.fromEntries(constants);
}

/** Where the members of a struct of the header are, where addresses have 64 bits, and its size. */
function layoutOf(name) {
  const [, body] = new RegExp(`typedef struct ${name} \\{(.*?)\\} ${name};`, 's').exec(HEADER);
  const [offsets, aligned] = [{}, (end, size) => Math.ceil(end / size) * size];
  let end = 0;
  for (const [, type, pointer, member] of body.matchAll(/(\w+)\s+(\*?)(\w+);/g)) {
    const size = pointer === '*' ? 8 : SIZES[type];
    offsets[member] = aligned(end, size);
    end = offsets[member] + size;
  }
  return { offsets, size: aligned(end, 8) };
}

const numbered = (names) => Object.fromEntries(names.map((name, number) => [name, number]));
const named = (members) => Object.fromEntries(Object.entries(members).map(([name, number]) => [inC(name), number]));

test('the numbers of calls, statuses, forms and notations are those of bcs.h', () => {
  assert.deepEqual(named(CALL), numbersOf('bcs_call'));
  assert.deepEqual(numbered(STATUSES), numbersOf('bcs_status'));
  assert.deepEqual({ ...numbered(FORMS), notes: WITH_NOTES }, numbersOf('bcs_form'));
  assert.deepEqual(numbered(NOTATIONS), numbersOf('bcs_notation'));
});

test('the members of questions and answers are where bcs.h has them', () => {
  const { offsets, size } = layoutOf('bcs_question');
  const lengths = ['format', 'first', 'second', 'views'].map((text) => [`${text}_length`, QUESTION[text] + 8]);
  assert.deepEqual({ ...named(QUESTION), ...Object.fromEntries(lengths) }, offsets);
  assert.equal(QUESTION_SIZE, size);
  assert.deepEqual([{ offsets: ANSWER, size: ANSWER_SIZE }], [layoutOf('bcs_answer')]);
});

/** The calls on a module that counts how often it is asked. */
async function counted() {
  const { Instance } = WebAssembly;
  const counts = { asked: 0 };
  WebAssembly.Instance = function (compiled, imports) {
    const { exports } = new Instance(compiled, imports);
    const ask = (...words) => (counts.asked++, exports.bcs_c_ask(...words));
    return { exports: { ...exports, bcs_c_ask: ask } };
  };
  const bcs = await load(module);
  // (the instance is made with the first call)
  const registry = bcs.registry(JSON.stringify({ P: { STRUCT: [{ a: 'U8' }] }, L: { STRUCT: [{ ['x'.repeat(5000)]: 'U8' }] } }));
  WebAssembly.Instance = Instance;
  return { counts, registry };
}

test('a refusal comes with its place and message, by one question where they fit', async () => {
  const { counts, registry } = await counted();
  const long = 'x'.repeat(5000);
  for (const [call, at, detail, asked] of [
    [() => registry.encodeText('P', '{"a":256}'), '/a', /^found 256, expected /, 1],
    [() => registry.normaliseText('P', '{"a":256}'), '/a', /^found 256, expected /, 1],
    [() => registry.equalText('P', '{"a":1}', '{"a":256}'), '/a', /^found 256, expected /, 1],
    [() => registry.decodeText('P', []), '.a', /^expected U8, /, 1],
    [() => registry.scan('P', []), '.a', /^expected U8, /, 1],
    [() => registry.part('P', [], '0'), '.a', /^expected U8, /, 1],
    [() => registry.encodeText('L', `{"${long}":256}`), `/${long}`, /^found 256, expected /, 2],
    [() => registry.decodeText('L', []), `.${long}`, /^expected U8, /, 2],
  ]) {
    assert.throws(call, { at });
    counts.asked = 0;
    assert.throws(call, { at, detail });
    assert.equal(counts.asked, asked, String(call));
  }
});

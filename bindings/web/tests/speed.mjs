// node tests/speed.mjs bcs.wasm: what an instance takes, and calls in one that is kept beside calls in one each; and calls on
// texts of a megabyte. It judges nothing.
import { readFileSync } from 'node:fs';
import { load } from '../bcs.mjs';
import { Calls, Opened } from '../calls.mjs';
import { CALL, Question } from '../question.mjs';

const module = await WebAssembly.compile(readFileSync(process.argv[2]));
const read = (name) => readFileSync(new URL(`../../../examples/${name}`, import.meta.url), 'utf8');
const encoder = new TextEncoder();

/** The least time of many short rounds, in microseconds, since other work of the machine only adds to it. */
function time(count, job) {
  const rounds = Array.from({ length: 30 }, () => {
    const start = performance.now();
    for (let i = 0; i < count; i++) job();
    return (1000 * (performance.now() - start)) / count;
  });
  return Math.min(...rounds).toFixed(1).padStart(9);
}

function asked(registry, format, text) {
  const texts = { format: encoder.encode(format), first: encoder.encode(text) };
  return [new Question(CALL.toBcs, { ...texts, depth: 500, nodes: 0xffffffff }), new Opened(encoder.encode(registry))];
}

const small = asked('{}', '"U8"', '7');
const transfer = asked(read('aptos_registry.json'), '{"TYPENAME":"RawTransaction"}', read('aptos_transfer.json'));
const kept = new Calls(module);

console.log(`${time(20, () => new WebAssembly.Instance(module, {}))} microseconds for an instance`);
for (const [name, [question, opened]] of Object.entries({ 'a U8': small, 'a transfer of Aptos': transfer })) {
  console.log(`${time(100, () => kept.ask(question, opened))} to encode ${name} in an instance that is kept`);
  console.log(`${time(20, () => new Calls(module).ask(question, opened))} to encode ${name} in one of its own`);
}

const bcs = await load(module);
const aptos = bcs.registry(read('aptos_registry.json'));
const text = read('aptos_transfer.json');
const bytes = aptos.encodeText('RawTransaction', text);
const value = aptos.decode('RawTransaction', bytes);
console.log(`${time(20, () => bcs.registry(read('aptos_registry.json')).close())} to read and open the registry of Aptos, and close it`);
console.log(`${time(200, () => aptos.encodeText('RawTransaction', text))} to encode the transfer of a text, the registry being open`);
console.log(`${time(200, () => aptos.encode('RawTransaction', value))} to encode it of a value in JavaScript's types`);
console.log(`${time(200, () => aptos.decodeText('RawTransaction', bytes))} to decode it as a text`);
console.log(`${time(200, () => aptos.decode('RawTransaction', bytes))} to decode it as a value`);
console.log(`${time(200, () => aptos.scan('RawTransaction', bytes))} to scan it`);

const registry = bcs.registry('{}');
const numbers = JSON.stringify(Array.from({ length: 93_000 }, (_, i) => (i * 2654435761) % 4294967296));
const texts = { numbers: ['{"SEQ":"U32"}', numbers], bytes: ['"BYTES"', JSON.stringify('c0de'.repeat(250_000))] };
for (const [name, [format, text]] of Object.entries(texts)) {
  const bytes = registry.encodeText(format, text);
  console.log(`${time(1, () => registry.encodeText(format, text))} to encode ${text.length} characters of ${name}`);
  console.log(`${time(1, () => registry.decodeText(format, bytes))} to decode them, ${bytes.length} bytes`);
}

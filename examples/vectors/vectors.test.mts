import { deepEqual, ok, throws } from 'node:assert/strict';
import { readFileSync } from 'node:fs';
import { test } from 'node:test';
import { types } from './types.mjs'; // { TypeTag, StructTag, .. }

type Line = { format: string; bytes: string; json?: unknown; text?: string; refused?: string };

test('vectors', () => {
  const lines: Line[] = readFileSync('vectors.jsonl', 'utf8').trim().split('\n').map(line => JSON.parse(line));
  for (const { format, bytes, json, text, refused } of lines.filter(line => line.text === undefined)) {
    const type = types[format], data = Uint8Array.from(bytes.match(/../g) ?? [], byte => parseInt(byte, 16));
    ok(type, `no type ${format}`);
    if (refused) {
      throws(() => type.parse(data), `${format} ${bytes}: ${refused}`);
      continue;
    }
    deepEqual(type.serialize(type.parse(data)).toBytes(), data, `${format} ${bytes}`);
    if (json !== undefined) deepEqual(type.parse(data), json, `${format} ${bytes}`);
  }
});

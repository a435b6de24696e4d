// The declarations for `import`, with the types of the language alone: `tsc` reads this, and nothing runs it.
import { load } from './bcs.mjs';

export async function loaded(bytes: Uint8Array): Promise<string[]> {
  const all = [await load(), await load(bytes), await load(Promise.resolve(bytes.buffer as ArrayBuffer))];
  // @ts-expect-error: no module
  await load(7);
  return all.map((bcs) => bcs.registry('{}').decodeText('"U8"', bytes));
}

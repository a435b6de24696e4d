// The same for TypeScript, over the module of this repository.
import { readFileSync } from 'node:fs';

const { load } = await import(`${process.env.BCS_WEB}/bcs.mjs`);
const text = readFileSync('registry.json', 'utf8');
const registry = (await load()).registry(text);

const parse = (name, data) => {
  try {
    return JSON.parse(registry.decodeText(name, data));
  } catch (error) {
    if (error.reason === 'TooNested') return data; // these bytes are a value
    throw error;
  }
};
const bytes = (name, value) => (value instanceof Uint8Array ? value : registry.encodeText(name, JSON.stringify(value)));
const type = name => ({
  parse: data => parse(name, data),
  serialize: value => ({ toBytes: () => bytes(name, value) }),
});
export const types = Object.fromEntries(Object.keys(JSON.parse(text)).map(name => [name, type(name)]));

// Finds bcs.wasm beside this file: in Node, in browsers, and where a bundler has put it.
import { load } from './loader.mjs';

/** Makes the calls from the module beside this file, or from the module that is passed. */
export function loadOwn(wasm = ownModule) {
  return load(wasm);
}

async function ownModule() {
  const address = ownAddress();
  const files = address.protocol === 'file:' ? await nodeFiles() : undefined;
  if (files !== undefined) return files.readFileSync(address);
  const response = await fetch(address);
  if (!response.ok) throw new Error(`no module at ${address}: status ${response.status}; pass the module to load()`);
  return response.arrayBuffer();
}

function ownAddress() {
  try {
    // (bundlers look for exactly this expression, and copy the file)
    return new URL('./bcs.wasm', import.meta.url);
  } catch (cause) {
    throw new Error("this bundle doesn't say where bcs.wasm is: pass the module to load()", { cause });
  }
}

/** Node's module for files, if this is Node. (Its name is put together, so that no bundler for pages looks for it.) */
async function nodeFiles() {
  const { process } = globalThis;
  if (process?.versions?.node === undefined) return undefined;
  const name = ['node', 'fs'].join(':');
  return process.getBuiltinModule?.(name) ?? import(/* webpackIgnore: true */ /* @vite-ignore */ name);
}

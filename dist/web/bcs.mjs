// bcs in JavaScript: Binary Canonical Serialization by serde-reflection registries, by proved calls in a WebAssembly module.
// README.md says how the module is made, what is proved of it, and what is trusted.
export { BcsError } from './errors.mjs';
export { hex } from './hex.mjs';
export { Limits } from './limits.mjs';
export { fromBase64, toBase64 } from './octets.mjs';
export { loadOwn as load } from './own_module.mjs';
export { isSupported } from './support.mjs';

// Started by Node as `node bcs.mjs`, or by npm's link to it, this file runs the proved program. Where it is imported, whether by
// Node or in a page, nothing more is read. (The address is built here, so that no bundler for pages follows it.)
if (/[\\/]bcs(\.mjs)?$/.test(globalThis.process?.argv?.[1])) {
  const program = import.meta.url.replace(/[^/]*$/, 'program.mjs');
  import(/* webpackIgnore: true */ /* @vite-ignore */ program).then(({ startedBy }) => startedBy(import.meta.url));
}

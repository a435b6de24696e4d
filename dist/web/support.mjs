// Which modules the engine runs.

// By the bits of an address, the smallest module that has what bcs.wasm and bcs64.wasm need: one that fills memory and makes a
// vector, and one with wide addresses, since an engine with those has the others, too.
const SMALLEST = {
  32: [1, 4, 1, 0x60, 0, 0, 3, 2, 1, 0, 5, 3, 1, 0, 1, 10, 18, 1, 16, 0, 0x41, 0, 0x41, 0, 0x41, 0, 0xfc, 11, 0, 0x41, 0, 0xfd, 15, 26, 11],
  64: [5, 3, 1, 4, 1],
};

/** Whether this engine has what `bcs.wasm` needs, or with 64 what `bcs64.wasm` needs. */
export function isSupported(bits = 32) {
  const smallest = Uint8Array.of(0, 0x61, 0x73, 0x6d, 1, 0, 0, 0, ...SMALLEST[bits]);
  return typeof WebAssembly === 'object' && WebAssembly.validate(smallest);
}

// The state of the page in the fragment of its address, which no browser sends anywhere.
const VERSION = '2.';
// With a checksum, without which one wrong character of a link could turn into another value.
const FORM = 'gzip';
// A link may come from anyone: more than this isn't unpacked.
const MOST_UNPACKED = 32 << 20;
const MOST_LINK = 400_000;

/** The fragment that holds a state, or `undefined` where it would be too long for an address. */
export async function fragmentOf(state) {
  const packed = await piped(new Blob([JSON.stringify(state)]), new CompressionStream(FORM));
  const fragment = VERSION + base64Of(packed);
  return fragment.length <= MOST_LINK ? fragment : undefined;
}

/** The state that a fragment holds, or `undefined` where it holds none, or not all of one. */
export async function stateOf(fragment) {
  if (!fragment.startsWith(VERSION)) return undefined;
  try {
    const packed = bytesOfBase64(fragment.slice(VERSION.length));
    const text = await piped(new Blob([packed]), new DecompressionStream(FORM));
    return checked(JSON.parse(new TextDecoder().decode(text)));
  } catch {
    return undefined;
  }
}

/** A state is an object of texts, and of the formats of byte strings by their names, which older links don't have. */
function checked({ registry, format, side, content, first, second, inside = {} }) {
  const texts = [registry, format, side, content, first, second, ...Object.values(inside)];
  return texts.every((text) => typeof text === 'string') ? { registry, format, side, content, first, second, inside } : undefined;
}

async function piped(blob, stream) {
  const parts = [];
  let length = 0;
  const reader = blob.stream().pipeThrough(stream).getReader();
  for (let next = await reader.read(); !next.done; next = await reader.read()) {
    length += next.value.length;
    if (length > MOST_UNPACKED) throw new RangeError('too long');
    parts.push(next.value);
  }
  return new Uint8Array(await new Blob(parts).arrayBuffer());
}

function base64Of(bytes) {
  let text = '';
  for (const byte of bytes) text += String.fromCharCode(byte);
  return btoa(text).replaceAll('+', '-').replaceAll('/', '_').replace(/=+$/, '');
}

function bytesOfBase64(text) {
  const plain = atob(text.replaceAll('-', '+').replaceAll('_', '/'));
  return Uint8Array.from(plain, (character) => character.charCodeAt(0));
}

// Where JSON is in a text.

/** Where the JSON that a JSON Pointer leads to begins and ends; `undefined` if it leads nowhere. */
export function rangeAt(text, pointer) {
  let from = behindBlanks(text, 0);
  for (const step of pointer.split('/').slice(1)) {
    const name = step.replaceAll('~1', '/').replaceAll('~0', '~');
    from = text[from] === '[' ? itemAt(text, from, Number(name)) : memberAt(text, from, name);
    if (from === undefined) return undefined;
  }
  const end = endOf(text, from);
  return end === undefined ? undefined : [from, end];
}

/** The sign at a line and a column, which counts bytes of UTF-8 from 1, or the last one before it. */
export function rangeOfLine(text, line, column) {
  const lines = text.split('\n');
  const before = lines.slice(0, line - 1).reduce((sum, { length }) => sum + length + 1, 0);
  let [signs, bytes] = [0, 0];
  for (const sign of lines[line - 1] ?? '') {
    bytes += new TextEncoder().encode(sign).length;
    if (bytes >= column) break;
    signs += sign.length;
  }
  const at = Math.max(0, Math.min(before + signs, text.length - 1));
  return [at, Math.min(at + 1, text.length)];
}

/** Where a place is, for people. */
export function lineAndColumn(text, at) {
  const front = text.slice(0, at);
  const start = front.lastIndexOf('\n') + 1;
  return { line: front.split('\n').length, column: [...front.slice(start)].length + 1 };
}

function behindBlanks(text, at) {
  while (/\s/.test(text[at] ?? '')) at++;
  return at;
}

function itemAt(text, array, number) {
  let at = behindBlanks(text, array + 1);
  for (let i = 0; i < number; i++) {
    at = behindBlanks(text, endOf(text, at) ?? text.length);
    if (text[at] !== ',') return undefined;
    at = behindBlanks(text, at + 1);
  }
  return at;
}

/** Of members with one name the last is read. */
function memberAt(text, object, name) {
  let found;
  let at = behindBlanks(text, object + 1);
  while (text[at] === '"') {
    const end = endOf(text, at);
    if (end === undefined) return undefined;
    const value = behindBlanks(text, behindBlanks(text, end) + 1);
    if (JSON.parse(text.slice(at, end)) === name) found = value;
    at = behindBlanks(text, endOf(text, value) ?? text.length);
    if (text[at] !== ',') return found;
    at = behindBlanks(text, at + 1);
  }
  return found;
}

const TOKEN = /"(?:[^"\\]|\\[^])*"|[[\]{}]|[^\s"[\]{},:]+|[\s,:]/y;

/** Where the value ends that begins there. */
function endOf(text, from) {
  let open = 0;
  TOKEN.lastIndex = from;
  for (;;) {
    const found = TOKEN.exec(text);
    if (found === null) return undefined;
    const [token] = found;
    if (token === '[' || token === '{') open++;
    if (token === ']' || token === '}') open--;
    if (open < 0 || (open === 0 && /^[\s,:]$/.test(token))) return undefined;
    if (open === 0) return TOKEN.lastIndex;
  }
}

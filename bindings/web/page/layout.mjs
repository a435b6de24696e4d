// A compact JSON text over several lines, as people read it. No string, number or order changes.
const TOKENS = /"[^"\\]*(?:\\.[^"\\]*)*"|[{}[\],:]|[^{}[\],:"\s]+/g;
const OPENING = new Set(['{', '[']);
const CLOSING = new Set(['}', ']']);

/** The text, two blanks a level. What fits into the width stays on one line. */
export function laidOut(text, width = 76) {
  const tokens = text.match(TOKENS) ?? [];
  const ends = endsOf(tokens);
  let out = '';
  let indent = 0;
  const lineEnd = () => '\n' + '  '.repeat(indent);
  for (let i = 0; i < tokens.length; i++) {
    const token = tokens[i];
    if (OPENING.has(token) && fits(tokens, i, ends.get(i), width - 2 * indent)) {
      out += onOneLine(tokens.slice(i, ends.get(i) + 1));
      i = ends.get(i);
    } else if (OPENING.has(token)) {
      indent += 1;
      out += token + lineEnd();
    } else if (CLOSING.has(token)) {
      indent -= 1;
      out += lineEnd() + token;
    } else if (token === ',') {
      out += token + lineEnd();
    } else {
      out += token === ':' ? ': ' : token;
    }
  }
  return out;
}

/** Where the bracket that opens at each place closes. */
function endsOf(tokens) {
  const ends = new Map();
  const open = [];
  tokens.forEach((token, i) => {
    if (OPENING.has(token)) open.push(i);
    else if (CLOSING.has(token)) ends.set(open.pop(), i);
  });
  return ends;
}

function fits(tokens, start, end, width) {
  let length = 0;
  for (let i = start; i <= end; i++) {
    length += tokens[i].length + (tokens[i] === ',' || tokens[i] === ':' ? 1 : 0);
    if (length > width) return false;
  }
  return true;
}

function onOneLine(tokens) {
  return tokens.map((token) => (token === ',' || token === ':' ? token + ' ' : token)).join('');
}

// Runs the program many times in one process of Node, since a process takes much longer to start than the program:
// `node starts.mjs FOLDER REQUESTS ANSWERS`, with the numbers of two descriptors. A request is a line of JSON: the arguments, and
// the names of three files for the standard streams. The answer is a line with the status. Each run has a thread of its own, which
// FOLDER/program.mjs starts as it does in a process of its own.
import { closeSync, openSync, readFileSync, readSync, writeSync } from 'node:fs';
import { join, resolve } from 'node:path';
import { pathToFileURL } from 'node:url';

const folder = resolve(process.argv[2]);
const [requests, answers] = process.argv.slice(3).map(Number);
const program = join(folder, 'bcs.mjs');
const { startedBy } = await import(pathToFileURL(join(folder, 'program.mjs')));
// As long as this one is there, V8 doesn't compile the same bytes again.
globalThis.compiled = new WebAssembly.Module(readFileSync(join(folder, 'bcs_program.wasm')));

const block = Buffer.alloc(1 << 16);
let waiting = '';

/** The next line, or nothing at the end. */
function line() {
  for (;;) {
    const end = waiting.indexOf('\n');
    if (end !== -1) {
      const found = waiting.slice(0, end);
      waiting = waiting.slice(end + 1);
      return found;
    }
    const length = readSync(requests, block);
    if (length === 0) return undefined;
    // (JSON escapes what isn't ASCII)
    waiting += block.toString('latin1', 0, length);
  }
}

/** Opens the files as the descriptors 0, 1 and 2, which are the lowest that are free. */
function redirect([input, output, errors]) {
  for (const stream of [0, 1, 2]) closeSync(stream);
  const opened = [openSync(input, 'r'), openSync(output, 'w'), openSync(errors, 'w')];
  if (opened.join() !== '0,1,2') throw new Error(`the streams are ${opened}`);
}

/** The status. The event `worker` comes before the next turn of the loop, and `exit` once the program has set the status. */
async function run(words) {
  process.argv = [process.execPath, program, ...words];
  process.exitCode = undefined;
  let ended;
  process.once('worker', (thread) => {
    ended = new Promise((resolve) => thread.once('exit', resolve));
  });
  startedBy(pathToFileURL(program).href);
  await new Promise(setImmediate);
  if (!ended) throw new Error('no thread was started');
  await ended;
  return process.exitCode;
}

for (let asked = line(); asked !== undefined; asked = line()) {
  const [words, streams] = JSON.parse(asked);
  redirect(streams);
  writeSync(answers, `${await run(words)}\n`);
}
process.exitCode = 0;

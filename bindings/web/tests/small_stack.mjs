// A thread with a small stack, for tests/loader.mjs: makes calls with less and less stack left, and reports what each came to.
import { readFileSync } from 'node:fs';
import { parentPort, workerData } from 'node:worker_threads';
import { BcsError, load } from '../bcs.mjs';

const bcs = await load(readFileSync(workerData));
const registry = bcs.registry('{"L":{"NEWTYPESTRUCT":{"SEQ":{"TYPENAME":"L"}}},"C":{"STRUCT":[{"next":{"OPTION":{"TYPENAME":"C"}}}]}}');
const list = Array.from({ length: 90 }).reduce((inner) => [inner], []);
const bytes = registry.encode('L', list);
const chain = new Uint8Array(500).fill(1, 0, 499);

const CALLS = [
  [() => registry.encode('L', list), (answer) => answer.length === 91],
  [() => registry.decode('L', bytes), (answer) => answer.length === 1],
  [() => registry.encodeText('L', JSON.stringify(list)), (answer) => answer.length === 91],
  [() => registry.scan('C', chain), (answer) => answer === 500],
];

function outcomeOf([call, isRight]) {
  try {
    return isRight(call()) ? 'answered' : 'another answer';
  } catch (error) {
    // (with room for a few frames alone, no function of the binding catches the engine's own error)
    return error instanceof BcsError ? error.kind : error instanceof RangeError ? 'engine' : String(error);
  }
}

/** Makes the calls in functions within one another, from the end of the stack on: in the last 20, and then in each 16th. */
function outcomes() {
  const found = [];
  let frames = 0;
  const descend = () => {
    try {
      descend();
    } catch (error) {
      if (!(error instanceof RangeError)) throw error;
    }
    frames++;
    if (frames < 20 || (frames < 2500 && frames % 16 === 0)) found.push(...CALLS.map(outcomeOf));
  };
  descend();
  return found;
}

parentPort.postMessage([...outcomes(), ...CALLS.slice(0, 3).map((call) => `at last ${outcomeOf(call)}`)]);

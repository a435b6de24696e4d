// Starts the proved program `bcs` in Node, in a thread of its own (host.mjs), since the stack of Node's own ends before the
// program's limits on depth do.
import { realpathSync, writeSync } from 'node:fs';
import { fileURLToPath } from 'node:url';
import { Worker } from 'node:worker_threads';

const STACK_MEGABYTES = 64;
const FAULT = 4;

/** Runs the program if Node was started with the file of this address. A link to it, as npm makes one, is followed. */
export function startedBy(address) {
  if (!isFile(process.argv[1], fileURLToPath(address))) return;
  // (The thread's own streams aren't used. Node would join them to its own, and set those not to block.)
  const thread = new Worker(new URL('host.mjs', address), {
    workerData: process.argv.slice(2),
    stdout: true,
    stderr: true,
    resourceLimits: { stackSizeMb: STACK_MEGABYTES },
  });
  thread.on('error', (error) => (process.exitCode = failed(error)));
  thread.on('exit', (status) => (process.exitCode ??= status));
}

/** Whether both names are of one file. (Node also has a name without its ending, of which there is no file.) */
function isFile(name, other) {
  try {
    return realpathSync(name) === realpathSync(other);
  } catch {
    return false;
  }
}

/** Reports what broke the program off, which is memory or a stack that ran out, and gives the status. */
export function failed(error) {
  const kinds = [RangeError, WebAssembly.RuntimeError];
  const ranOut = kinds.some((kind) => error instanceof kind) || error.code === 'ERR_WORKER_OUT_OF_MEMORY';
  try {
    writeSync(2, `fault: ${ranOut ? 'memory' : error.message}\n`);
  } catch {
    // (the standard error is closed)
  }
  return FAULT;
}

// Makes the calls from the module: registries, growth, and the names of faults.
import { Calls } from './calls.mjs';
import { BcsError } from './errors.mjs';
import { Holder } from './holder.mjs';
import { interruptible } from './interruptions.mjs';
import { isUnsigned, MOST_DEPTH, requireKnown } from './limits.mjs';
import { linesOfTypes, madeRegistryOf } from './modules.mjs';
import { MoveTypes } from './move_types.mjs';
import { CALL, Question } from './question.mjs';
import { reported } from './refusals.mjs';
import { Registry } from './registry.mjs';
import { isSupported } from './support.mjs';
import { bytesOf, stringOfUtf8 } from './texts.mjs';

const FILE_ADVICE =
  "a string is read as JSON; for a file, pass its contents: readFileSync(name, 'utf8') in Node, or await (await fetch(url)).text()";

/** Makes the calls from the module's bytes, a `Response` with them, a compiled module, or a function that returns one of these. */
export async function load(wasm) {
  if (typeof WebAssembly !== 'object') throw new Error('this engine has no WebAssembly');
  if (!isSupported()) {
    throw new Error(
      'this engine has no WebAssembly with vectors (SIMD), which Chrome and Edge have from 91, Firefox from 89, Safari from ' +
        '16.4, and Node from 16.4',
    );
  }
  try {
    return new Bcs(await compiled(await (typeof wasm === 'function' ? wasm() : wasm)));
  } catch (error) {
    if (/Content.Security.Policy|unsafe-eval|disallowed by embedder/i.test(error?.message)) {
      throw new Error("the Content-Security-Policy here forbids WebAssembly: script-src needs 'wasm-unsafe-eval'", { cause: error });
    }
    if (!(error instanceof WebAssembly.CompileError) || isSupported(64)) throw error;
    throw new Error(
      'this engine takes bcs.wasm, and not this module: it has no memory with 64-bit addresses, which Chrome and Edge have ' +
        'from 133, Firefox from 134, Node from 24, and Node 20 and 22 with --experimental-wasm-memory64',
      { cause: error },
    );
  }
}

function compiled(wasm) {
  if (wasm instanceof WebAssembly.Module) return wasm;
  if (typeof Response === 'function' && wasm instanceof Response) return WebAssembly.compileStreaming(wasm);
  return WebAssembly.compile(wasm);
}

/** Whether this is a string that can't be a registry: the JSON of one begins with a brace. */
function mayNameFile(text) {
  return typeof text === 'string' && /^[^{]/.test(text.trimStart());
}

class Bcs {
  #calls;
  #names = new Map();

  constructor(module) {
    this.#calls = new Calls(module);
  }

  /** A registry, from its JSON. `names` has the names of containers whose values are addresses and integers of 256 bits. */
  registry(text, options = {}) {
    requireKnown(options, ['names'], 'option');
    const { names } = options;
    const [bytes, moveTypes] = [bytesOf(text), new MoveTypes(names)];
    const holder = new Holder(this.#calls, bytes, moveTypes);
    this.#accepted(interruptible(() => this.#calls.open(holder.opened)), (answer) => this.#placeInRegistry(answer, text, bytes));
    holder.checkNames();
    return new Registry(this, holder, { depth: MOST_DEPTH });
  }

  /** Returns if the newer registry keeps everything in the older one; otherwise it is refused, with its first fault. */
  grows(older, newer) {
    this.#askOfBoth(CALL.grows, older, newer);
  }

  /** All differences from an older registry to a newer one, a line for each. */
  differences(older, newer) {
    return stringOfUtf8(this.#askOfBoth(CALL.growthList, older, newer).output).split('\n').slice(0, -1);
  }

  #askOfBoth(call, older, newer) {
    const [first, second] = [bytesOf(older), bytesOf(newer)];
    return this.ask(new Question(call, { first, second }), undefined, (answer) => {
      if (answer.status === 'refused') return undefined;
      return this.#placeInRegistry(answer, ...(answer.status === 'newer' ? [newer, second] : [older, first]));
    });
  }

  /**
   * The registry for types of a Move chain, from the JSON of modules as a node returns them: its JSON, and notes for people. Each of
   * the types is a type, or a function, whose arguments have containers of their own.
   */
  registryOfModules(modules, types) {
    const [first, second] = [bytesOf(modules), linesOfTypes(types)];
    return madeRegistryOf(this.ask(new Question(CALL.registryOfModules, { first, second })).output);
  }

  /** What is wrong with the JSON of a registry. Callers may have passed the name of a file, which no call opens. */
  #placeInRegistry({ fault }, text, bytes) {
    const { at, detail } = this.reportedBy(new Question(CALL.registryRefusal, { first: bytes }));
    const isFile = detail !== undefined && mayNameFile(text) && this.faultName(fault) === 'NotJson';
    return { at, detail: isFile ? `${detail}; ${FILE_ADVICE}` : detail };
  }

  /** The name of a fault of bcs.h, or `undefined` where no fault has the number. */
  faultName(fault) {
    if (!isUnsigned(fault)) return undefined;
    if (!this.#names.has(fault)) {
      const answer = this.answerTo(new Question(CALL.faultName, { number: fault }));
      this.#names.set(fault, answer.status === 'done' ? stringOfUtf8(answer.output) : undefined);
    }
    return this.#names.get(fault);
  }

  /**
   * Asks about an open registry, or without one. Returns the answer of a call that is done or says no, and throws any other: a
   * refusal with what `placing` reports of it, or with the message that comes with the answer.
   */
  ask(question, opened, placing) {
    return this.#accepted(this.answerTo(question, opened), placing);
  }

  /** The answer, whatever it is. */
  answerTo(question, opened) {
    return interruptible(() => this.#calls.ask(question, opened));
  }

  /** What the output of a call reports of a refusal. */
  reportedBy(question, opened) {
    const { status, output } = this.answerTo(question, opened);
    return status === 'done' ? reported(output) : {};
  }

  #accepted(answer, placing) {
    if (answer.status === 'done' || answer.status === 'no') return answer;
    throw this.#refusal(answer, placing);
  }

  #refusal(answer, placing) {
    const { status, fault, place, message } = answer;
    if (status === 'memory') return new BcsError('memory', { detail: 'memory ran out' });
    if (status === 'limits') return new BcsError('limits', { detail: 'the depth is above 500' });
    const kind = status === 'refused' ? kindOfFault(fault) : status;
    const { at, detail } = placing?.(answer) ?? reported(message);
    // (only where bytes stop being a value is there a place: the JSON that nests too deep has none)
    const isStop = kind === 'bytes' && fault < 500;
    return new BcsError(kind, { reason: this.faultName(fault), place: isStop ? place : undefined, at, detail: detail || undefined });
  }
}

function kindOfFault(fault) {
  if (fault < 300) return 'growth';
  if (fault >= 800) return 'modules';
  if (fault >= 700) return 'example';
  if (fault >= 600) return 'path';
  return fault < 400 ? 'text' : 'bytes';
}

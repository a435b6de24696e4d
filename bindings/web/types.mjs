// The command `bcs-types`, which writes TypeScript declarations of a registry's values.
import { declarationsOf } from './declarations.mjs';
import { BcsError } from './errors.mjs';
import { MoveTypes } from './move_types.mjs';
import { loadOwn } from './own_module.mjs';
import { containersOf } from './shapes.mjs';
import { Fault, system } from './system.mjs';

const USAGE = `Usage: bcs-types [--plain-options] [--names NAMES] REGISTRY >registry.d.mts

Writes the types of a registry's values for TypeScript. REGISTRY is a file, or the registry's JSON, which begins with {.
With --plain-options, the types are those of values that are decoded with { plainOptions: true }.
NAMES are those that the registry is opened with, as JSON: {"address":["AccountAddress"]}.
`;

/** Gives the status: 0, 2 of a registry that is refused, 3 of wrong words, 4 of a file. What is wrong goes to standard error. */
async function run(words) {
  const isHelp = words.length === 1 && ['--help', '-h'].includes(words[0]);
  try {
    const asked = isHelp ? undefined : askedBy(words);
    await system.put(Buffer.from(isHelp ? USAGE : await declarationsFor(asked)));
    return 0;
  } catch (error) {
    return statusOf(error);
  }
}

/** The arguments are invalid. The message says what is wrong with them. */
class WrongWords extends Error {}

function askedBy(words) {
  const [options, registry] = [words.slice(0, -1), words.at(-1) ?? '-'];
  const asked = { registry, plainOptions: false, names: undefined };
  if (registry.startsWith('-')) throw new WrongWords(USAGE);
  while (options.length > 0) {
    const option = options.shift();
    if (option === '--plain-options') asked.plainOptions = true;
    else if (option === '--names' && options.length > 0) asked.names = namesIn(options.shift());
    else throw new WrongWords(USAGE);
  }
  return asked;
}

function namesIn(text) {
  try {
    return JSON.parse(text);
  } catch {
    throw new WrongWords("names: this isn't JSON\n");
  }
}

/** The declarations for a registry, which the proved call has read. */
async function declarationsFor({ registry, plainOptions, names }) {
  const text = registry.startsWith('{') ? Buffer.from(registry) : await system.read(registry);
  const bcs = await loadOwn();
  try {
    bcs.registry(text, { names }).close();
  } catch (error) {
    throw error instanceof TypeError ? new WrongWords(`${error.message}\n`) : error;
  }
  return declarationsOf(containersOf(text.toString()), plainOptions, new MoveTypes(names));
}

function statusOf(error) {
  if (error instanceof WrongWords) {
    system.tell(error.message);
    return 3;
  }
  if (error instanceof BcsError && error.kind === 'registry') {
    system.tell(`${error.message}\n`);
    return 2;
  }
  if (!(error instanceof BcsError || error instanceof Fault)) throw error;
  system.tell(`fault: ${error instanceof Fault ? error.message : error.kind}${error.place ? ` ${error.place}` : ''}\n`);
  return 4;
}

process.exitCode = await run(process.argv.slice(2));

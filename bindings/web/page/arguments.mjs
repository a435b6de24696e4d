// The functions of Move that a value calls, Aptos' entry functions, of which the registry has the arguments.
const ARGUMENT = /^(.*)::arg[0-9]+$/s;
const OWN_NAME = /^0x[0-9a-fA-F]+::\w+::(\w+)(?:<.*>)?$/s;
const BESIDE = ['.module.address', '.module.name', '.ty_args'];
const REFUSED = ['BadPath', 'OtherFunction'];
// A value may have thousands of calls, and each question explains all of its bytes.
const MOST_QUESTIONS = 50;

/**
 * By the name of a list of byte strings the function whose arguments they are: one for which the registry has containers, as
 * `from-move` makes them, which are called `F::arg0` and so on. `explain` returns the pieces with such calls: the library compares
 * each function with the one that is called.
 */
export function callsIn(containers, pieces, explain) {
  const functions = [...new Set(Array.from(containers.keys(), (name) => ARGUMENT.exec(name)?.[1]))].filter((name) => containers.has(name));
  const names = new Set(pieces.map(({ name }) => name));
  const calls = {};
  let questions = 0;
  for (const { name, kind, value } of pieces) {
    const base = name?.replace(/\.function$/, '');
    if (kind !== 'text' || base === name || !BESIDE.every((member) => names.has(`${base}${member}`))) continue;
    const list = `${base}.args`;
    const isCalled = (called) => ++questions <= MOST_QUESTIONS && isAccepted(explain({ [list]: called }), list);
    const found = functions.find((called) => OWN_NAME.exec(called)?.[1] === value && isCalled(called));
    if (found !== undefined) calls[list] = found;
  }
  return calls;
}

/** A function with the formats of its arguments, as in `transfer(address, U64)`. */
export function signatureOf(containers, called) {
  const formats = (containers.get(called)?.STRUCT ?? []).map((field) => Object.values(field)[0]);
  const shown = formats.map((format) => (typeof format === 'string' ? format : format.TYPENAME ?? JSON.stringify(format)));
  return `${OWN_NAME.exec(called)[1]}(${shown.join(', ')})`;
}

/** A container's name. That of an argument begins with its whole function, and is shortened. */
export function shownContainer(name) {
  return name.replace(/^.*::(\w+)(?:<.*>)?::(arg[0-9]+)$/s, '$2 of $1');
}

/** Whether the library compared the function, and it is the one that is called. */
function isAccepted(told, list) {
  return !REFUSED.includes(told.at(-1).refused) && !told.some(({ note, name }) => note !== undefined && name === list);
}

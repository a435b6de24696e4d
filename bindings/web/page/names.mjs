// Makes names and texts from strangers safe to show: invisible characters, and those that reverse a line, become escapes.
const ADDRESS = /0x([0-9a-f]{4})[0-9a-f]{56}([0-9a-f]{4})(?![0-9a-f])/g;
const MOST_LISTED = 60;
const UNSEEN = /[\p{Cc}\p{Cf}\p{Zl}\p{Zp}\p{Cs}\p{Co}\p{Cn}]/gu;

export function shownName(name, most = 120) {
  const cut = name.length > most ? `${name.slice(0, most)}…` : name;
  return cut.replace(UNSEEN, (character) => `\\u{${character.codePointAt(0).toString(16)}}`);
}

/** Names for a list, with whole addresses and long names cut in their middle. What is the same then isn't cut. */
export function listedNames(names) {
  const cut = names.map((name) => shownName(withoutMiddle(name.replace(ADDRESS, '0x$1…$2'))));
  const count = new Map();
  for (const name of cut) count.set(name, (count.get(name) ?? 0) + 1);
  return cut.map((name, i) => (count.get(name) === 1 ? name : shownName(names[i], 400)));
}

function withoutMiddle(name) {
  return name.length > MOST_LISTED ? `${name.slice(0, MOST_LISTED / 2)}…${name.slice(-MOST_LISTED / 2)}` : name;
}

/** A number with a thin mark at each thousand. */
export function shownNumber(number) {
  return number.toLocaleString('en');
}

export function counted(number, one, many) {
  return `${shownNumber(number)} ${number === 1 ? one : many}`;
}

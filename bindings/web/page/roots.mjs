// The containers of a registry that no other one uses, which are the ones that are signed or sent.
const MOST_STEPS = 200_000;

/** The root with the most containers below it, or the first container if each is used by another. The registry is valid. */
export function rootOf(containers) {
  const uses = new Map(Array.from(containers, ([name, container]) => [name, namesIn(container)]));
  const used = new Set(Array.from(uses, ([name, others]) => [...others].filter((other) => other !== name)).flat());
  const roots = [...containers.keys()].filter((name) => !used.has(name));
  const budget = { steps: MOST_STEPS };
  const [first, ...others] = roots.map((name) => [name, countBelow(uses, name, budget)]);
  return others.reduce((best, next) => (next[1] > best[1] ? next : best), first ?? [[...containers.keys()][0]])[0];
}

/** How many containers there are below one. After many steps the roots that are left count for nothing. */
function countBelow(uses, name, budget) {
  const seen = new Set([name]);
  for (const next of seen) {
    for (const other of uses.get(next)) if (budget.steps-- > 0) seen.add(other);
  }
  return seen.size;
}

/** The names that a container uses. It nests only as deep as the proved reader allows. */
function namesIn(part, found = new Set()) {
  if (typeof part !== 'object' || part === null) return found;
  for (const [key, inner] of Object.entries(part)) {
    if (key === 'TYPENAME' && typeof inner === 'string') found.add(inner);
    else namesIn(inner, found);
  }
  return found;
}

// A registry that is made from modules, beside one that is there.

/** The containers of both, as JSON. Those that both have must be the same. */
export function joinedRegistry(present, made) {
  const [before, more] = [present, made].map((text) => new Map(Object.entries(JSON.parse(text))));
  for (const [name, container] of more) {
    if (before.has(name) && JSON.stringify(before.get(name)) !== JSON.stringify(container)) {
      throw new Error(`the registry has another container that is called ${name}`);
    }
    before.set(name, container);
  }
  // (objects would have members such as __proto__ elsewhere)
  return `{${Array.from(before, ([name, container]) => `${JSON.stringify(name)}:${JSON.stringify(container)}`).join(',\n')}}`;
}

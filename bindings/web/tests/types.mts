// What the declarations let through, and what they refuse: `tsc` reads this, and nothing runs it.
import { BcsError, fromBase64, hex, isSupported, Limits, load, toBase64 } from '../bcs.mjs';
import type { End, IntegerArray, Kind, MadeRegistry, Note, Piece, Registry, Stop, Value, ValueInput } from '../bcs.mjs';

export async function calls(wasm: Uint8Array): Promise<void> {
  if (!isSupported()) return;
  const bcs = await load(wasm);
  await load(fetch('bcs.wasm'));
  const registry: Registry = bcs.registry('{}').withLimits({ depth: 3 });
  bcs.grows('{}', new Uint8Array());
  const limits: Limits = Limits.standard();
  const wide: Registry = registry.withLimits(Limits.standard()).withLimits({ depth: limits.depth!, nodes: Limits.standard().nodes });
  const integers: IntegerArray[] = [Int8Array.of(1), Uint16Array.of(1), BigUint64Array.of(1n)];
  const inputs: ValueInput[] = [...integers, new Uint8ClampedArray(1), new ArrayBuffer(1), '7', 7, 7n, hex('07'), [['a', 1]], new Map([[1, [null]]])];
  for (const input of inputs) wide.encode('A', input);
  const name: string | undefined = bcs.faultName(402);
  const bytes: Uint8Array = registry.encode({ SEQ: 'U8' }, [1, 2n, new Uint8Array(), new Map([['a', null]]), { some: true }]);
  const value: Value = registry.decode({ MAP: { KEY: 'STR', VALUE: { OPTION: 'U8' } } }, bytes);
  const texts: string[] = [registry.decodeText('A', bytes), registry.normaliseText('A', bytes)];
  texts.push(registry.explainText('A', bytes, 'tree'));
  const isEqual: boolean = registry.equalText('A', texts[0]!, '1') && registry.equal('A', [1, 2n], hex('0102'));
  const normal: Value = registry.normalise('A', new Map([['a', 1]]));
  const length: number = registry.scan('A', registry.encodeText('A', '1'));
  const place: number | undefined = registry.part('A', bytes, 'inner/0')?.place;
  registry.check('"U8"');
  const back: Value = registry.decode('A', fromBase64(toBase64([1, 2])).buffer as ArrayBuffer, { plainOptions: false });
  const named: Registry = bcs.registry('{}', { names: { address: ['AccountAddress'], u256: [] } });
  console.log(back, normal, named.names);
  const made: MadeRegistry = bcs.registryOfModules(new Uint8Array(), new Set(['u8']));
  console.log(bcs.registry(made.json), made.notes, bcs.registryOfModules('[]', ['u8', '0x1::m::S']).json);
  registry.close();
  for (const piece of registry.explain('A', bytes)) tell(piece);
  console.log(name, value, isEqual, length, place, registry.names.length);
}

function tell(piece: Piece | Note | End | Stop): void {
  if ('end' in piece) console.log(piece.end);
  else if ('note' in piece) console.log(piece.name, piece.note);
  else if ('refused' in piece) console.log(piece.refused, piece.want);
  else console.log(piece.kind, piece.value);
}

interface Inner {
  readonly id: bigint;
  tags?: ReadonlyMap<string, Uint8Array>;
}

interface P {
  to: string;
  amount: bigint;
  inner: Inner[];
  pair: readonly [number, Inner | null];
  byKey: Map<string, Inner>;
}

class Point {
  constructor(readonly x: number, readonly y: bigint) {}
}

/** Types without an index signature are values, too, if their members are. */
export function interfaces(registry: Registry, p: P, points: readonly Point[], any: Registry<any>): void {
  const bytes: Uint8Array[] = [registry.encode('P', p), registry.encode('Points', points), registry.encode({ TYPENAME: 'P' }, p), any.encode('P', p)];
  const value: Value = registry.normalise('P', p);
  console.log(bytes, value, registry.equal('P', p, p), registry.equal('P', p, { to: '', amount: 7n }));
}

export function kindOf(error: unknown): string {
  if (!(error instanceof BcsError)) return '';
  const words: (string | undefined)[] = [error.at, error.detail, error.reason];
  const kind: Kind = error.kind === 'value' ? 'text' : error.kind;
  return `${kind} ${error.place ?? ''} ${words.join(' ')}`;
}

interface Wrong {
  at: Date;
}

interface Deep {
  inner: { run(): void }[];
}

export function refused(registry: Registry, wrong: Wrong, deep: Deep): void {
  // @ts-expect-error: a member is no value
  registry.encode('A', wrong);
  // @ts-expect-error: a member is no value
  registry.encode('A', deep);
  // @ts-expect-error: a member is no value
  registry.equal('A', 7, [wrong]);
  // @ts-expect-error: a member is no value
  registry.normalise('A', { a: undefined });
  // @ts-expect-error: a function is no value
  registry.encode('A', () => 7);
  // @ts-expect-error: a symbol is no value
  registry.encode('A', [Symbol('a')]);
  // @ts-expect-error: no option
  registry.decode('A', [], { json: true });
  // @ts-expect-error: digits are a string
  hex(7);
  // @ts-expect-error: no value
  registry.encode('A', undefined);
  // @ts-expect-error: no value
  registry.encode('A', new Date(0));
  // @ts-expect-error: no list
  registry.encode('A', new Set([1]));
  // @ts-expect-error: no limit
  registry.withLimits({ nodes: 7n });
  // @ts-expect-error: the limits can't be changed for others
  Limits.standard = () => ({ depth: 1, nodes: 1 });
  // @ts-expect-error: no format
  registry.check({ LIST: 'U8' });
  // @ts-expect-error: no word of a format
  registry.check({ SEQ: 'U7' });
  // @ts-expect-error: bytes are no text
  registry.decode('A', '00');
  // @ts-expect-error: no form
  registry.explainText('A', new Uint8Array(), 'table');
}

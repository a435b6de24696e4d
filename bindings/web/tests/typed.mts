// Values with the types that `bcs-types` wrote of the registries in examples/. `tsc` reads this, and Node runs what it makes of
// it. Lines with a comment of an error are refused by `tsc`, with this text in its message, and no others are.
import { readFileSync } from 'node:fs';
import { load } from './bcs.mjs';
import type { Format, Registry, Value } from './bcs.mjs';
import type {
  AccountAddress, EntryFunction, RawTransaction, RawTransactionInput, TransactionPayload, Types as Aptos, TypeTag,
} from './aptos.mjs';
import type { GasData, TransactionData, TransactionKind, Types as Sui } from './sui.mjs';
import type { Coin, Types as Shapes } from './shapes.mjs';
import type { Prices as PlainPrices, Types as PlainShapes } from './plain_shapes.mjs';

const [, , wasm, examples] = process.argv;
const read = (name: string): string => readFileSync(`${examples}/${name}`, 'utf8').trim();
const bcs = await load(readFileSync(wasm!));
const aptos = bcs.registry<Aptos>(read('aptos_registry.json'));
const sui: Registry<Sui> = bcs.registry(read('sui_registry.json'));

function equal(found: unknown, wanted: unknown): void {
  if (found !== wanted) throw new Error(`${found} is not ${wanted}`);
}

function digits(bytes: Uint8Array): string {
  return Array.from(bytes, (byte) => byte.toString(16).padStart(2, '0')).join('');
}

function bytesOf(text: string): Uint8Array {
  return Uint8Array.from(text.match(/../g) ?? [], (pair) => parseInt(pair, 16));
}

const one: AccountAddress = Uint8Array.of(...new Array<number>(31).fill(0), 1);
const coin: TypeTag = { Struct: { address: one, module: 'aptos_coin', name: 'AptosCoin', type_args: [] } };
const call: EntryFunction = {
  module: { address: one, name: 'coin' },
  function: 'transfer',
  ty_args: [coin],
  args: [bytesOf('2d133ddd281bb6205558357cc6ac75661817e9aaeac3afebc32842759cbf7fa9'), bytesOf('8813000000000000')],
};
const transfer: RawTransaction = {
  sender: bytesOf('7deeccb1080854f499ec8b4c1b213b82c5e34b925cf6875fec02d4b77adbd2d6'),
  sequence_number: 11n,
  payload: { EntryFunction: call },
  max_gas_amount: 2000n,
  gas_unit_price: 1n,
  expiration_timestamp_secs: 1234567890n,
  chain_id: 4,
};

/** What `encode` takes beyond what `decode` gives. */
function rightInput(): void {
  const input: RawTransactionInput = {
    ...transfer,
    sender: [...transfer.sender],
    sequence_number: 11,
    payload: { EntryFunction: { ...call, args: call.args.map((bytes) => Uint8Array.from(bytes).buffer as ArrayBuffer) } },
    chain_id: 4n,
  };
  equal(digits(aptos.encode('RawTransaction', input)), read('aptos_transfer.hex'));
  const frozen = { module: { address: one, name: 'coin' }, function: 'transfer', ty_args: [coin], args: [one, one] } as const;
  equal(aptos.encode('EntryFunction', frozen).length, aptos.encode('EntryFunction', { ...call, args: [one, one] }).length);
}

/** What `decode` gives has its type. */
function rightValues(): void {
  const bytes = aptos.encode('RawTransaction', transfer);
  equal(digits(bytes), read('aptos_transfer.hex'));
  const back: RawTransaction = aptos.decode('RawTransaction', bytes);
  const number: bigint = back.sequence_number + 1n;
  equal(number, 12n);
  equal(nameOf(back.payload), 'coin');
  equal(digits(aptos.encode<'RawTransaction'>('RawTransaction', back)), read('aptos_transfer.hex'));
  const staked: TransactionData = sui.decode('TransactionData', bytesOf(read('sui_stake.hex')));
  equal(digits(sui.encode('TransactionData', staked)), read('sui_stake.hex'));
  const { gas_data, kind } = staked.V1;
  const [gas, told]: [GasData, TransactionKind] = [gas_data, kind];
  equal(typeof gas.budget, 'bigint');
  equal('ProgrammableTransaction' in told, true);
}

function nameOf(payload: TransactionPayload): string {
  return 'EntryFunction' in payload ? payload.EntryFunction.module.name : '';
}

/** Formats that are no container's name have `Value`, and names are those of the types. */
function rightFormats(shapes: Registry<Shapes>, plainShapes: Registry<PlainShapes>): void {
  const value: Value = aptos.decode({ SEQ: { TYPENAME: 'TypeTag' } }, aptos.encode('{"SEQ":{"TYPENAME":"TypeTag"}}', ['U8']));
  equal(JSON.stringify(value), '["U8"]');
  const names: (keyof Aptos)[] = aptos.names;
  for (const name of names) aptos.check(name);
  const untyped: Registry = bcs.registry(read('aptos_registry.json'));
  const format: Format = 'ChainId' as string;
  const both: Registry<any>[] = [untyped, aptos];
  for (const registry of both) equal(registry.decode(format, registry.encode(format, 7)), 7);
  equal(digits(untyped.encode('RawTransaction', transfer)), read('aptos_transfer.hex'));
  equal(aptos.withLimits({ depth: 9 }).decode('ChainId', [7]), 7);
  equal(aptos.decodeText('RawTransaction', bytesOf(read('aptos_transfer.hex'))), read('aptos_transfer_normal.json'));
  equal(aptos.equal('ChainId', 7, 7n) && aptos.normalise('ChainId', 7n) === 7, true);
  const prices: Map<string, bigint | null> = new Map(Array.from(shapes.decode('Prices', [1, 1, 97, 0]), ([name, price]) => [name, price?.some ?? null]));
  equal(prices.get('a'), null);
  const fixed: ReadonlyMap<string, { some: number } | null> = new Map([['a', null]]);
  equal(digits(shapes.encode('Prices', fixed)), '01016100');
  equal(shapes.encode('Prices', new Map([['a', { some: 7 }], ['b', null]])).length, 15);
  equal(shapes.encode('Shape', 'Dot').length + shapes.encode('Shape', { Box: [1, 2n] }).length, 19);
  equal(shapes.encode('Empty', {}).length, 0);
  const coin: Coin = shapes.decode('Coin', shapes.encode('Coin', { owner: '0x1', balance: 7, debt: -1n }));
  equal(`${coin.owner} ${coin.balance} ${coin.debt?.some}`, `0x${'0'.repeat(63)}1 7 -1`);
  equal(shapes.encode('Prices', new Map([['a', 7n], ['b', null]])).length, 15);
  const plain: PlainPrices = plainShapes.decode('Prices', [1, 1, 97, 1, 7, 0, 0, 0, 0, 0, 0, 0], { plainOptions: true });
  const price: bigint | null | undefined = plain.get('a');
  equal(price, 7n);
  const { value: first, length } = shapes.decodePrefix('Id', [7, 0, 0, 0, 0, 0, 0, 0, 9]);
  equal(first + BigInt(length), 15n);
}

export function wrongInput(shapes: Registry<Shapes>): void {
  const { payload, ...without } = transfer;
  aptos.encode('RawTransaction', without); // error: Property 'payload' is missing
  aptos.encode('RawTransaction', { ...transfer, fee: 1n }); // error: 'fee' does not exist in type
  aptos.encode('RawTransaction', { ...transfer, sequence_number: '11' }); // error: Type 'string' is not assignable to type 'number | bigint'
  aptos.encode('RawTransaction', { ...transfer, sender: '7deeccb1' }); // error: Type 'string' is not assignable to type 'AccountAddressInput'
  aptos.encode('RawTransaction', { ...transfer, chain_id: null }); // error: Type 'null' is not assignable to type 'ChainIdInput'
  aptos.encode('RawTransaction', { ...transfer, payload: 'EntryFunction' }); // error: is not assignable to type 'TransactionPayloadInput'
  aptos.encode('RawTransaction', { ...transfer, payload: { Entry: call } }); // error: 'Entry' does not exist in type
  aptos.encode('RawTransaction', { ...transfer, payload: { Script: call } }); // error: Property 'code' is missing in type 'EntryFunction' but required in type 'ScriptInput'
  aptos.encode('TypeTag', 'U512'); // error: Argument of type '"U512"' is not assignable to parameter of type 'TypeTagInput'
  aptos.encode('TypeTag', { Vector: [] }); // error: is not assignable to type 'TypeTagInput'
  aptos.encode('Multisig', { multisig_address: one, transaction_payload: { EntryFunction: one } }); // error: Type 'Uint8Array' is missing the following properties from type 'EntryFunctionInput'
  aptos.encode('Multisig', { multisig_address: one, transaction_payload: undefined }); // error: Type 'undefined' is not assignable
  aptos.encode('Ed25519PublicKey', [1, true]); // error: Type 'boolean' is not assignable to type 'number'
  aptos.encode('Ed25519PublicKey', '0102'); // error: is not assignable to parameter of type 'Ed25519PublicKeyInput'
  aptos.encode('Identifier', one); // error: Argument of type 'Uint8Array' is not assignable to parameter of type 'string'
  aptos.encode('TransactionArgument', { Bool: 1 }); // error: Type 'number' is not assignable to type 'boolean'
  aptos.encode('RawTransactions', transfer); // error: Argument of type '"RawTransactions"' is not assignable to parameter of type 'Format<
  aptos.decode('Transaction', []); // error: '"Transaction"' is not assignable to parameter of type 'Format<
  aptos.check('Transaction'); // error: '"Transaction"' is not assignable to parameter of type 'Format<
  sui.encode('TransactionData', transfer); // error: Argument of type 'RawTransaction' is not assignable to parameter of type 'TransactionDataInput'
  shapes.encode('Prices', { a: null }); // error: is not assignable to parameter of type 'PricesInput'
  shapes.encode('Prices', new Map([['a', '7']])); // error: Type 'string' is not assignable to type
  shapes.encode('Shape', { Box: [1] }); // error: Source has 1 element(s) but target requires 2
  shapes.encode('Shape', { Named: {} }); // error: Property 'side' is missing in type '{}'
  shapes.encode('Shape', { Dot: null }); // error: 'Dot' does not exist in type
  shapes.encode('Empty', { a: 1 }); // error: Type 'number' is not assignable to type 'never'
  shapes.encode('address', 1n); // error: is not assignable to parameter of type 'addressInput'
  shapes.encode('u256', '7'); // error: is not assignable to parameter of type 'u256Input'
  shapes.encode('Float', 1.5); // error: is not assignable to parameter of type 'never'
  shapes.encode('Endless', null); // error: is not assignable to parameter of type 'never'
}

export function wrongValues(shapes: Registry<Shapes>): void {
  const back = aptos.decode('RawTransaction', []);
  const number: number = back.sequence_number; // error: Type 'bigint' is not assignable to type 'number'
  const wide: bigint = back.chain_id; // error: Type 'number' is not assignable to type 'bigint'
  const sender: string = back.sender; // error: Type 'Uint8Array' is not assignable to type 'string'
  const fee = back.fee; // error: Property 'fee' does not exist on type 'RawTransaction'
  const script = back.payload.Script; // error: Property 'Script' does not exist on type 'TransactionPayload'
  const price: bigint = shapes.decode('Prices', []).get('a')!; // error: Type '{ some: bigint; }' is not assignable to type 'bigint'
  const other: TransactionData = aptos.decode('RawTransaction', []); // error: Property 'V1' is missing in type 'RawTransaction'
  const typed: Registry<Sui> = aptos; // error: Types of property 'names' are incompatible
  const narrow: RawTransaction = { ...transfer, sequence_number: 11 }; // error: Type 'number' is not assignable to type 'bigint'
  const plain: bigint = shapes.decode('Id', [], { plainOptions: true }); // error: is not assignable to type 'bigint'
  console.log(plain, number, wide, sender, fee, script, price, other, typed, narrow);
}

rightInput();
rightValues();
rightFormats(bcs.registry(read('../bindings/web/tests/shapes.json')), bcs.registry(read('../bindings/web/tests/shapes.json')));

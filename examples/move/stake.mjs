// From the arguments of a Move function to the bytes that are signed, for Sui:
//
//     node examples/move/stake.mjs TYPES
//
// TYPES is the registry that `bcs from-move` makes for FUNCTION. Prints TransactionData in hexadecimal.
import { readFileSync } from 'node:fs';
import { load } from '../../dist/web/bcs.mjs';

const FUNCTION = '0x3::sui_system::request_add_stake';
const VALIDATOR = `0x${'2'.repeat(64)}`, AMOUNT = 1_000_000_000n;
const read = path => readFileSync(path, 'utf8');
const example = name => read(new URL(`../${name}`, import.meta.url));
const digits = bytes => Buffer.from(bytes).toString('hex');

const bcs = await load();
const types = bcs.registry(read(process.argv[2]));
const chain = bcs.registry(example('sui_registry.json'));
const transaction = JSON.parse(example('sui_stake.json'));
const { inputs } = transaction.V1.kind.ProgrammableTransaction;
// A pure input is a byte string: the BCS of its value. Objects have no bytes here.
inputs[0] = { Pure: digits(types.encode('"U64"', AMOUNT)) };
inputs[3] = { Pure: digits(types.encode(`${FUNCTION}::arg2`, VALIDATOR)) };
console.log(digits(chain.encodeText('TransactionData', JSON.stringify(transaction))));

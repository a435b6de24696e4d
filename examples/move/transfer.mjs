// From the arguments of a Move function to the bytes that are signed, for Aptos:
//
//     node examples/move/transfer.mjs TYPES
//
// TYPES is the registry that `bcs from-move` makes for FUNCTION. Prints a RawTransaction in hexadecimal.
import { readFileSync } from 'node:fs';
import { load } from '../../dist/web/bcs.mjs';

const FUNCTION = '0x1::coin::transfer<0x1::aptos_coin::AptosCoin>';
const TO = '0x2d133ddd281bb6205558357cc6ac75661817e9aaeac3afebc32842759cbf7fa9', AMOUNT = 5000;
const read = path => readFileSync(path, 'utf8');
const example = name => read(new URL(`../${name}`, import.meta.url));
const digits = bytes => Buffer.from(bytes).toString('hex');

const bcs = await load();
const types = bcs.registry(read(process.argv[2]));
const chain = bcs.registry(example('aptos_registry.json'));
// Each argument is a byte string: the BCS of its value.
const args = [TO, AMOUNT].map((value, number) => types.encode(`${FUNCTION}::arg${number}`, value));
const transaction = JSON.parse(example('aptos_transfer.json'));
transaction.payload.EntryFunction.args = args.map(digits);
console.log(digits(chain.encodeText('RawTransaction', JSON.stringify(transaction))));

// A wallet makes the message that it signs for a transfer on Aptos, and shows what it signs: node wallet.mjs EXAMPLES
import { createHash } from 'node:crypto';
import { readFileSync } from 'node:fs';
import { createRequire } from 'node:module';
import { BcsError, hex, load } from 'bcs-proved';

const read = (name) => readFileSync(`${process.argv[2]}/${name}`, 'utf8');
const bcs = await load(readFileSync(createRequire(import.meta.url).resolve('bcs-proved/bcs.wasm')));
const registry = bcs.registry(read('aptos_registry.json'), { names: { address: ['AccountAddress'] } });
const data = registry.encode('RawTransaction', {
  sender: '0x7deeccb1080854f499ec8b4c1b213b82c5e34b925cf6875fec02d4b77adbd2d6',
  sequence_number: 11,
  payload: {
    EntryFunction: {
      module: { address: '0x1', name: 'coin' },
      function: 'transfer',
      ty_args: [{ Struct: { address: '0x1', module: 'aptos_coin', name: 'AptosCoin', type_args: [] } }],
      // the receiver, and the amount of 5000, each in its own encoding
      args: [hex('2d133ddd281bb6205558357cc6ac75661817e9aaeac3afebc32842759cbf7fa9'), registry.encode('"U64"', 5000n)],
    },
  },
  max_gas_amount: 2000,
  gas_unit_price: 1,
  expiration_timestamp_secs: 1234567890n,
  chain_id: 4,
});

// Aptos signs the bytes after the hash of this name.
const name = createHash('sha3-256').update('APTOS::RawTransaction').digest();
console.log(Buffer.concat([name, data]).toString('hex'));
console.log(registry.decodeText('RawTransaction', data));

function refused(call) {
  try {
    call();
  } catch (error) {
    if (!(error instanceof BcsError)) throw error;
    console.log([error.reason, error.place, error.at].filter((part) => part !== undefined).join(' '));
  }
}
refused(() => registry.encodeText('RawTransaction', read('aptos_transfer_damaged.json')));
refused(() => registry.decode('RawTransaction', data.slice(0, 100)));

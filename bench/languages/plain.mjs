// A codec for transactions of Aptos, as it is written by hand. It checks less.
const [ENTRY_FUNCTION, STRUCT] = [2, 7];
const [utf8, fromUtf8] = [new TextEncoder(), new TextDecoder('utf-8', { fatal: true })];

export class PlainWriter {
  #bytes;
  #view;
  #length = 0;

  constructor(room) {
    this.#bytes = new Uint8Array(room);
    this.#view = new DataView(this.#bytes.buffer);
  }

  byte(byte) {
    this.#bytes[this.#length++] = byte;
  }

  count(count) {
    for (; count >= 0x80; count >>>= 7) this.byte((count & 0x7f) | 0x80);
    this.byte(count);
  }

  raw(bytes) {
    this.#bytes.set(bytes, this.#length);
    this.#length += bytes.length;
  }

  bytes(bytes) {
    this.count(bytes.length);
    this.raw(bytes);
  }

  text(text) {
    this.bytes(utf8.encode(text));
  }

  address(text) {
    const digits = text.slice(2).padStart(64, '0');
    for (let i = 0; i < 64; i += 2) this.byte(parseInt(digits.slice(i, i + 2), 16));
  }

  number(number) {
    this.#view.setBigUint64(this.#length, BigInt(number), true);
    this.#length += 8;
  }

  tags(tags) {
    this.count(tags.length);
    for (const { Struct: tag } of tags) {
      this.byte(STRUCT);
      this.address(tag.address);
      this.text(tag.module);
      this.text(tag.name);
      this.tags(tag.type_args);
    }
  }

  transaction(value) {
    const call = value.payload.EntryFunction;
    this.address(value.sender);
    this.number(value.sequence_number);
    this.byte(ENTRY_FUNCTION);
    this.address(call.module.address);
    this.text(call.module.name);
    this.text(call.function);
    this.tags(call.ty_args);
    this.count(call.args.length);
    for (const argument of call.args) this.bytes(argument);
    this.number(value.max_gas_amount);
    this.number(value.gas_unit_price);
    this.number(value.expiration_timestamp_secs);
    this.byte(value.chain_id);
    return this.whole();
  }

  whole() {
    return this.#bytes.slice(0, this.#length);
  }
}

export class PlainReader {
  #bytes;
  #view;
  #place = 0;

  constructor(bytes) {
    this.#bytes = bytes;
    this.#view = new DataView(bytes.buffer, bytes.byteOffset, bytes.length);
  }

  take(length) {
    const end = this.#place + length;
    if (end > this.#bytes.length) throw new RangeError('the end');
    const part = this.#bytes.subarray(this.#place, end);
    this.#place = end;
    return part;
  }

  byte() {
    return this.take(1)[0];
  }

  count() {
    let count = 0;
    for (let shift = 0; shift < 32; shift += 7) {
      const byte = this.byte();
      count |= (byte & 0x7f) << shift;
      if (byte < 0x80) return count;
    }
    throw new RangeError('a long length');
  }

  bytes() {
    return this.take(this.count()).slice();
  }

  text() {
    return fromUtf8.decode(this.take(this.count()));
  }

  address() {
    let digits = '0x';
    for (const byte of this.take(32)) digits += byte.toString(16).padStart(2, '0');
    return digits;
  }

  number() {
    this.take(8);
    return this.#view.getBigUint64(this.#place - 8, true);
  }

  list(item) {
    return Array.from({ length: this.count() }, item);
  }

  variant(number) {
    if (this.byte() !== number) throw new RangeError('another variant');
  }

  tag() {
    this.variant(STRUCT);
    const tag = { address: this.address(), module: this.text(), name: this.text(), type_args: this.list(() => this.tag()) };
    return { Struct: tag };
  }

  payload() {
    this.variant(ENTRY_FUNCTION);
    const module = { address: this.address(), name: this.text() };
    const call = { module, function: this.text(), ty_args: this.list(() => this.tag()), args: this.list(() => this.bytes()) };
    return { EntryFunction: call };
  }

  transaction() {
    const value = {
      sender: this.address(),
      sequence_number: this.number(),
      payload: this.payload(),
      max_gas_amount: this.number(),
      gas_unit_price: this.number(),
      expiration_timestamp_secs: this.number(),
      chain_id: this.byte(),
    };
    if (this.#place !== this.#bytes.length) throw new RangeError('more');
    return value;
  }
}

//! A codec for this one type, as it is written by hand. It checks less.
use crate::digits::Digits;
use crate::transaction::{Address, EntryFunction, ModuleId, Payload, RawTransaction, StructTag, TypeTag};
use bcs_proved::Bytes;

const ENTRY_FUNCTION: u8 = 2;
const VECTOR: u8 = 6;
const STRUCT: u8 = 7;

fn put_length(out: &mut Vec<u8>, mut length: usize) {
    while length >= 0x80 {
        out.push(length as u8 | 0x80);
        length >>= 7;
    }
    out.push(length as u8);
}

fn put_bytes(out: &mut Vec<u8>, bytes: &[u8]) {
    put_length(out, bytes.len());
    out.extend_from_slice(bytes);
}

fn put_tags(out: &mut Vec<u8>, tags: &[TypeTag]) {
    put_length(out, tags.len());
    tags.iter().for_each(|tag| put_tag(out, tag));
}

fn put_tag(out: &mut Vec<u8>, tag: &TypeTag) {
    match tag {
        TypeTag::Vector(content) => {
            out.push(VECTOR);
            put_tag(out, content);
        }
        TypeTag::Struct(tag) => {
            out.push(STRUCT);
            out.extend_from_slice(&tag.address.0);
            put_bytes(out, tag.module.as_bytes());
            put_bytes(out, tag.name.as_bytes());
            put_tags(out, &tag.type_args);
        }
    }
}

pub fn encoded(value: &RawTransaction) -> Vec<u8> {
    let mut out = Vec::new();
    out.extend_from_slice(&value.sender.0);
    out.extend_from_slice(&value.sequence_number.to_le_bytes());
    let Payload::EntryFunction(call) = &value.payload;
    out.push(ENTRY_FUNCTION);
    out.extend_from_slice(&call.module.address.0);
    put_bytes(&mut out, call.module.name.as_bytes());
    put_bytes(&mut out, call.function.as_bytes());
    put_tags(&mut out, &call.ty_args);
    put_length(&mut out, call.args.len());
    call.args.iter().for_each(|argument| put_bytes(&mut out, &argument.0.0));
    for number in [value.max_gas_amount, value.gas_unit_price, value.expiration_timestamp_secs] {
        out.extend_from_slice(&number.to_le_bytes());
    }
    out.push(value.chain_id);
    out
}

pub fn encoded_bytes(bytes: &[u8]) -> Vec<u8> {
    let mut out = Vec::with_capacity(bytes.len() + 5);
    put_bytes(&mut out, bytes);
    out
}

struct Reader<'b>(&'b [u8]);

impl<'b> Reader<'b> {
    fn take(&mut self, length: usize) -> Option<&'b [u8]> {
        let (taken, rest) = self.0.split_at_checked(length)?;
        self.0 = rest;
        Some(taken)
    }

    fn byte(&mut self) -> Option<u8> {
        self.take(1).map(|bytes| bytes[0])
    }

    fn number(&mut self) -> Option<u64> {
        self.take(8)?.try_into().ok().map(u64::from_le_bytes)
    }

    fn length(&mut self) -> Option<usize> {
        let mut length = 0;
        for shift in (0..32).step_by(7) {
            let byte = self.byte()?;
            length |= usize::from(byte & 0x7f) << shift;
            if byte < 0x80 {
                return (byte > 0 || shift == 0).then_some(length);
            }
        }
        None
    }

    fn bytes(&mut self) -> Option<&'b [u8]> {
        let length = self.length()?;
        self.take(length)
    }

    fn text(&mut self) -> Option<String> {
        String::from_utf8(self.bytes()?.to_vec()).ok()
    }

    fn address(&mut self) -> Option<Address> {
        self.take(32)?.try_into().ok().map(Digits)
    }

    fn list<T>(&mut self, item: impl Fn(&mut Self) -> Option<T>) -> Option<Vec<T>> {
        (0..self.length()?).map(|_| item(self)).collect()
    }

    fn tag(&mut self) -> Option<TypeTag> {
        match self.byte()? {
            VECTOR => Some(TypeTag::Vector(Box::new(self.tag()?))),
            STRUCT => Some(TypeTag::Struct(StructTag {
                address: self.address()?,
                module: self.text()?,
                name: self.text()?,
                type_args: self.list(Reader::tag)?,
            })),
            _ => None,
        }
    }

    fn payload(&mut self) -> Option<Payload> {
        if self.byte()? != ENTRY_FUNCTION {
            return None;
        }
        Some(Payload::EntryFunction(EntryFunction {
            module: ModuleId { address: self.address()?, name: self.text()? },
            function: self.text()?,
            ty_args: self.list(Reader::tag)?,
            args: self.list(|reader| Some(Digits(Bytes(reader.bytes()?.to_vec()))))?,
        }))
    }
}

pub fn decoded(data: &[u8]) -> Option<RawTransaction> {
    let mut reader = Reader(data);
    let value = RawTransaction {
        sender: reader.address()?,
        sequence_number: reader.number()?,
        payload: reader.payload()?,
        max_gas_amount: reader.number()?,
        gas_unit_price: reader.number()?,
        expiration_timestamp_secs: reader.number()?,
        chain_id: reader.byte()?,
    };
    reader.0.is_empty().then_some(value)
}

pub fn decoded_bytes(data: &[u8]) -> Option<Vec<u8>> {
    let mut reader = Reader(data);
    let bytes = reader.bytes()?.to_vec();
    reader.0.is_empty().then_some(bytes)
}

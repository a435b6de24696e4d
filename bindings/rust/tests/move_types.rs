//! Move's addresses and integers of 256 bits.
#![cfg(feature = "serde_json")]

use bcs_proved::{Address, ErrorKind, I256, Registry, U256};
use std::fmt::{Debug, Display};
use std::str::FromStr;

mod common;
use common::bytes;

const REGISTRY: &str = r#"{
    "address": {"NEWTYPESTRUCT": {"TUPLEARRAY": {"CONTENT": "U8", "SIZE": 32}}},
    "u256": {"NEWTYPESTRUCT": {"TUPLEARRAY": {"CONTENT": "U8", "SIZE": 32}}},
    "i256": {"NEWTYPESTRUCT": {"TUPLEARRAY": {"CONTENT": "U8", "SIZE": 32}}},
    "Coin": {"STRUCT": [{"owner": {"TYPENAME": "address"}}, {"amount": {"TYPENAME": "u256"}}]}
}"#;

#[test]
fn addresses_are_parsed_and_printed() {
    let registry = Registry::read(REGISTRY).unwrap();
    let full = |digits: &str| format!("{digits:0>64}");
    for (text, digits) in
        [("0x1", "1"), ("0x0", "0"), ("0xABc", "abc"), (&format!("0x{}", "fE".repeat(32)), &"fe".repeat(32))]
    {
        let address: Address = text.parse().unwrap();
        assert_eq!(address.to_string(), format!("0x{}", full(digits)));
        let encoded = registry.encode("address", &address).unwrap();
        assert_eq!(encoded, bytes(&full(digits)));
        assert_eq!(registry.decode("address", &encoded), Ok(address));
    }
    for text in ["", "1", "0x", "0x1g", "0X1", "x1", "0x+1", "0xé", " 0x1", &format!("0x{}", "0".repeat(65))] {
        let error = text.parse::<Address>().unwrap_err();
        assert_eq!(error.to_string(), "expected 0x and 1 to 64 hexadecimal digits", "{text}");
    }
}

/// The decimal digits of a number, and its bytes, the first of which is the lowest; all others are the last one here.
fn same<T: FromStr + Display + Debug + PartialEq>(decimal: &str, digits: &str, of_bytes: fn([u8; 32]) -> T)
where
    T::Err: Debug,
{
    let mut all = bytes(digits);
    let last = *all.last().unwrap();
    all.resize(32, last);
    let number = of_bytes(all.try_into().unwrap());
    assert_eq!(number.to_string(), decimal);
    assert_eq!(decimal.parse::<T>().unwrap(), number);
}

#[test]
fn integers_are_parsed_and_printed() {
    let greatest = "115792089237316195423570985008687907853269984665640564039457584007913129639935";
    let half = "57896044618658097711785492504343953926634992332820282019728792003956564819968";
    let half_less = "57896044618658097711785492504343953926634992332820282019728792003956564819967";
    let sign = |low: &str, high: &str| format!("{}{high}", low.repeat(31));
    for (decimal, digits) in [
        ("0", "00"),
        ("1", "0100"),
        ("256", "000100"),
        (greatest, "ff"),
        (half, &sign("00", "80")),
        (half_less, &sign("ff", "7f")),
    ] {
        same(decimal, digits, U256);
    }
    for (decimal, digits) in [
        ("0", "00"),
        ("1", "0100"),
        ("-1", "ff"),
        ("-256", "00ff"),
        (half_less, &sign("ff", "7f")),
        (&format!("-{half}"), &sign("00", "80")),
    ] {
        same(decimal, digits, I256);
    }
    assert_eq!("007".parse(), Ok(U256::from(7_u8)));
    assert_eq!("-0".parse(), Ok(I256::default()));
    let above = greatest.replace("9935", "9936");
    for text in ["", "-1", "+1", "0x1", " 1", "1.0", "1e3", &above, &above.repeat(9)] {
        assert_eq!(
            text.parse::<U256>().unwrap_err().to_string(),
            "expected a decimal number from 0 to 2^256 - 1",
            "{text}"
        );
    }
    for text in ["", "-", "--1", "+1", half, greatest, &format!("-{half}0"), &format!("-{greatest}")] {
        let error = text.parse::<I256>().unwrap_err();
        assert_eq!(error.to_string(), "expected a decimal number from -2^255 to 2^255 - 1", "{text}");
    }
    assert_eq!(format!("{:?} {:>5} {:05}", U256::from(5_u8), I256::from(-5_i8), I256::from(-5_i8)), "5    -5 -0005");
}

#[test]
fn integers_are_converted() {
    assert_eq!(u128::try_from(U256::from(u128::MAX)), Ok(u128::MAX));
    assert_eq!(u64::try_from(U256::from(u64::MAX)), Ok(u64::MAX));
    assert_eq!(i128::try_from(I256::from(i128::MIN)), Ok(i128::MIN));
    assert_eq!(i8::try_from(I256::from(-1_i64)), Ok(-1));
    assert!(u8::try_from(U256::from(256_u16)).is_err());
    assert!(i8::try_from(I256::from(128_i16)).is_err());
    let mut above = U256::default();
    above.0[16] = 1;
    assert!(u128::try_from(above).is_err());
    let mut below = I256::from(i128::MIN);
    below.0[16] = 0xfe;
    assert!(i128::try_from(below).is_err());
}

#[test]
fn integers_are_ordered() {
    let unsigned = ["0", "1", "255", "256", "340282366920938463463374607431768211456"];
    let signed = ["-340282366920938463463374607431768211456", "-256", "-1", "0", "1", "256"];
    assert!(unsigned.map(|text| text.parse::<U256>().unwrap()).is_sorted());
    assert!(signed.map(|text| text.parse::<I256>().unwrap()).is_sorted());
    assert!(U256::from(1_u8) < U256::from(256_u16) && I256::from(-1_i8) > I256::from(-256_i16));
}

#[derive(serde::Serialize, serde::Deserialize, PartialEq, Debug)]
struct Coin {
    owner: Address,
    amount: U256,
}

#[test]
fn structs_have_them() {
    let registry = Registry::read(REGISTRY).unwrap();
    let coin = Coin { owner: "0x2".parse().unwrap(), amount: U256::from(5_u8) };
    let encoded = registry.encode("Coin", &coin).unwrap();
    assert_eq!(encoded, bytes(&format!("{:0>64}{:0<64}", 2, "05")));
    assert_eq!(registry.decode("Coin", &encoded), Ok(coin));
    // JSON has the digits, as for any 32 bytes.
    let json = format!(r#"{{"amount":"{:0<64}","owner":"{:0>64}"}}"#, "05", 2);
    assert_eq!(registry.decode_json("Coin", &encoded), Ok(json));
    let error = registry.encode(r#""STR""#, &Address::default()).unwrap_err();
    assert_eq!((error.kind(), error.message()), (ErrorKind::Value, "STR takes a string, not a tuple"));
}

use my_sdk::round_trip; // fn(format: &str, data: &[u8]) -> Result<Vec<u8>, Error>

#[test]
fn vectors() {
    let lines = include_str!("vectors.jsonl").lines();
    let lines: Vec<serde_json::Value> = lines.map(|line| serde_json::from_str(line).unwrap()).collect();
    assert!(!lines.is_empty());
    for line in lines.iter().filter(|line| line["text"].is_null()) {
        let digits = line["bytes"].as_str().unwrap();
        let byte = |at| u8::from_str_radix(&digits[at..at + 2], 16).unwrap();
        let data: Vec<u8> = (0..digits.len()).step_by(2).map(byte).collect();
        match round_trip(line["format"].as_str().unwrap(), &data) {
            Ok(again) => assert!(line["refused"].is_null() && again == data, "{line}"),
            Err(error) => assert!(line["refused"].is_string(), "{line}: {error}"),
        }
    }
}

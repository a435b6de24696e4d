//! One registry in eight threads at once.
use bcs_proved::{Error, Explanation, Form, Format, Registry};
use std::thread;

mod common;
use common::{example, example_bytes, example_registry};

#[test]
fn eight_threads_use_one_registry() {
    let registry = &example_registry("sui_registry");
    let (text, hex) = (&example("sui_stake.json"), &example_bytes("sui_stake"));
    let normal = &example("sui_stake_normal.json");
    let (damaged, explained) = (&example_bytes("sui_stake_damaged"), &example("sui_stake_damaged.explained"));
    thread::scope(|scope| {
        for _ in 0..8 {
            scope.spawn(move || {
                for _ in 0..100 {
                    assert_eq!(&registry.encode_json("TransactionData", text).unwrap(), hex);
                    assert_eq!(registry.decode_json("TransactionData", hex).unwrap(), normal.trim_end());
                    let explanation = registry.explain_text("TransactionData", damaged, Form::Ways).unwrap();
                    assert_eq!(format!("{explanation}refused: BadBool at 65\n"), *explained);
                    assert_eq!(explanation.stop.unwrap().place, 65);
                }
            });
        }
    });
}

#[test]
fn a_registry_moves_to_other_threads() {
    let registry = example_registry("aptos_registry");
    let threads: Vec<_> = (0..8)
        .map(|_| {
            let registry = registry.clone();
            thread::spawn(move || registry.encode_json("RawTransaction", example("aptos_transfer.json")))
        })
        .collect();
    drop(registry);
    for thread in threads {
        assert_eq!(thread.join().unwrap().unwrap(), example_bytes("aptos_transfer"));
    }
}

/// The registry is closed when its last owner drops it, which may be in any thread and between a refusal and its message.
#[test]
fn a_registry_stays_open_for_each_call() {
    let expected = example_registry("sui_registry").decode_json("Coins", []).unwrap_err();
    assert_eq!(expected.message(), "no container is called Coins");
    for _ in 0..50 {
        let registry = example_registry("sui_registry");
        let threads: Vec<_> = (0..8)
            .map(|_| {
                let registry = registry.clone();
                thread::spawn(move || registry.decode_json("Coins", []).unwrap_err())
            })
            .collect();
        drop(registry);
        for thread in threads {
            assert_eq!(thread.join().unwrap(), expected);
        }
    }
}

#[test]
fn types_go_between_threads() {
    fn goes<T: Send + Sync + 'static>() {}
    goes::<Registry>();
    goes::<Format>();
    goes::<Error>();
    goes::<Explanation>();
}

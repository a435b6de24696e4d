// A wallet makes the message that it signs for a transfer on Aptos, and shows what it signs: wallet EXAMPLES
package main

import (
	"encoding/hex"
	"errors"
	"fmt"
	"log"
	"os"
	"path/filepath"

	"fodrascu.example/bcsproved"
)

// Aptos signs the bytes after the SHA3-256 of "APTOS::RawTransaction".
const name = "b5e97db07fa0bd0e5598aa3643a9bc6f6693bddc1a9fec9e674a461eaa00b193"

type (
	structTag struct {
		Address, Module, Name string
		TypeArgs              []typeTag
	}
	typeTag  struct{ Struct *structTag } // of its variants, those that this wallet knows
	moduleID struct{ Address, Name string }
	function struct {
		Module   moduleID
		Function string
		TyArgs   []typeTag
		Args     [][]byte
	}
	payload     struct{ EntryFunction *function }
	transaction struct {
		Sender                  string
		SequenceNumber          uint64
		Payload                 payload
		MaxGasAmount            uint64
		GasUnitPrice            uint64
		ExpirationTimestampSecs uint64
		ChainID                 uint8
	}
)

func must[T any](value T, err error) T {
	if err != nil {
		log.Fatal(err)
	}
	return value
}

func main() {
	examples := os.Args[1]
	chain := must(os.ReadFile(filepath.Join(examples, "aptos_registry.json")))
	registry := must(bcsproved.Open(chain, bcsproved.Names{Addresses: []string{"AccountAddress"}}))
	defer registry.Close()
	to := must(registry.Encode("AccountAddress", "0x2d133ddd281bb6205558357cc6ac75661817e9aaeac3afebc32842759cbf7fa9"))
	amount := must(registry.Encode(`"U64"`, 5000))
	coin := typeTag{&structTag{"0x1", "aptos_coin", "AptosCoin", nil}}
	data := must(registry.Encode("RawTransaction", transaction{
		Sender:                  "0x7deeccb1080854f499ec8b4c1b213b82c5e34b925cf6875fec02d4b77adbd2d6",
		SequenceNumber:          11,
		Payload:                 payload{&function{moduleID{"0x1", "coin"}, "transfer", []typeTag{coin}, [][]byte{to, amount}}},
		MaxGasAmount:            2000,
		GasUnitPrice:            1,
		ExpirationTimestampSecs: 1234567890,
		ChainID:                 4,
	}))
	fmt.Println(name + hex.EncodeToString(data))
	fmt.Println(string(must(registry.DecodeJSON("RawTransaction", data))))

	var refused *bcsproved.Error
	damaged := must(os.ReadFile(filepath.Join(examples, "aptos_transfer_damaged.json")))
	if _, err := registry.EncodeJSON("RawTransaction", damaged); errors.As(err, &refused) {
		fmt.Println(refused.Reason, refused.At)
	}
	var signed transaction
	if err := registry.Unmarshal("RawTransaction", data[:100], &signed); errors.As(err, &refused) {
		fmt.Println(refused.Reason, refused.Place, refused.At)
	}
}

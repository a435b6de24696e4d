package bcsproved_test

import (
	"errors"
	"fmt"
	"log"

	"fodrascu.example/bcsproved"
)

type payment struct {
	To     string
	Amount uint64
}

func Example() {
	registry, err := bcsproved.Open([]byte(`{"Payment":{"STRUCT":[{"to":"STR"},{"amount":"U64"}]}}`))
	if err != nil {
		log.Fatal(err)
	}
	defer registry.Close()
	data, err := registry.Encode("Payment", payment{"bob", 7})
	if err != nil {
		log.Fatal(err)
	}
	fmt.Printf("%x\n", data)

	var paid payment
	if err := registry.Unmarshal("Payment", data, &paid); err != nil {
		log.Fatal(err)
	}
	fmt.Println(paid)

	var refused *bcsproved.Error
	if _, err := registry.Decode("Payment", data[:5]); errors.As(err, &refused) {
		fmt.Println(refused.Kind, refused.Reason, refused.Place, refused.At)
	}
	// Output:
	// 03626f620700000000000000
	// {bob 7}
	// bytes EndOfInput 5 .amount
}

package codec

// The same for Go, over the module of this repository.

import (
	"encoding/json"
	"errors"
	"os"

	"fodrascu.example/bcsproved"
)

type function = func([]byte) ([]byte, error)

var roundTrip = map[string]function{}

func check(err error) {
	if err != nil {
		panic(err)
	}
}

func init() {
	text, err := os.ReadFile("registry.json")
	check(err)
	registry, err := bcsproved.Open(text)
	check(err)
	var containers map[string]any
	check(json.Unmarshal(text, &containers))
	for name := range containers {
		name := name
		roundTrip[name] = func(data []byte) ([]byte, error) {
			value, err := registry.DecodeJSON(name, data)
			var refusal *bcsproved.Error
			if errors.As(err, &refusal) && refusal.Reason == "TooNested" { // these bytes are a value
				return data, nil
			} else if err != nil {
				return nil, err
			}
			return registry.EncodeJSON(name, value)
		}
	}
}

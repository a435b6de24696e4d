package codec

import (
	"bytes"
	"encoding/hex"
	"encoding/json"
	"os"
	"testing"
)

func TestVectors(t *testing.T) {
	file, _ := os.Open("testdata/vectors.jsonl")
	count := 0
	for lines := json.NewDecoder(file); lines.More(); count++ {
		var line struct{ Format, Bytes, Refused, Text string }
		if err := lines.Decode(&line); err != nil {
			t.Fatal(err)
		}
		data, _ := hex.DecodeString(line.Bytes)
		if line.Text != "" {
			continue
		}
		again, err := roundTrip[line.Format](data)
		if (err != nil) != (line.Refused != "") || err == nil && !bytes.Equal(again, data) {
			t.Errorf("%s %s: %x, %v; expected %q", line.Format, line.Bytes, again, err, line.Refused)
		}
	}
	if count == 0 {
		t.Error("no lines")
	}
}

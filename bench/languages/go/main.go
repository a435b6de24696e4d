// Times the calls of bindings/go for bench/values.py: go EXAMPLES
package main

import (
	"bytes"
	"encoding/binary"
	"encoding/hex"
	"errors"
	"fmt"
	"log"
	"os"
	"path/filepath"
	"reflect"
	"syscall"
	"time"

	"fodrascu.example/bcsproved"
)

const (
	runs = 7
	// A run takes about this long.
	run                        = 100 * time.Millisecond
	format                     = "RawTransaction"
	entryFunction, structure   = 2, 7
	addressLength, megabyteLen = 32, 1000000
)

type (
	address   [addressLength]byte
	structTag struct {
		Address      address
		Module, Name string
		TypeArgs     []typeTag
	}
	typeTag  struct{ Struct *structTag } // of its variants, those that this wallet knows
	moduleID struct {
		Address address
		Name    string
	}
	function struct {
		Module   moduleID
		Function string
		TyArgs   []typeTag
		Args     [][]byte
	}
	payload     struct{ EntryFunction *function }
	transaction struct {
		Sender                  address
		SequenceNumber          uint64
		Payload                 payload
		MaxGasAmount            uint64
		GasUnitPrice            uint64
		ExpirationTimestampSecs uint64
		ChainID                 uint8
	}
)

// A codec for this one type, as it is written by hand. It checks less.

func appendBytes(out, data []byte) []byte {
	return append(binary.AppendUvarint(out, uint64(len(data))), data...)
}

func appendText(out []byte, text string) []byte {
	return append(binary.AppendUvarint(out, uint64(len(text))), text...)
}

func appendTags(out []byte, tags []typeTag) []byte {
	out = binary.AppendUvarint(out, uint64(len(tags)))
	for _, tag := range tags {
		out = append(append(out, structure), tag.Struct.Address[:]...)
		out = appendText(appendText(out, tag.Struct.Module), tag.Struct.Name)
		out = appendTags(out, tag.Struct.TypeArgs)
	}
	return out
}

func plainEncoded(value *transaction) []byte {
	call := value.Payload.EntryFunction
	out := append([]byte(nil), value.Sender[:]...)
	out = append(binary.LittleEndian.AppendUint64(out, value.SequenceNumber), entryFunction)
	out = appendText(append(out, call.Module.Address[:]...), call.Module.Name)
	out = appendTags(appendText(out, call.Function), call.TyArgs)
	out = binary.AppendUvarint(out, uint64(len(call.Args)))
	for _, argument := range call.Args {
		out = appendBytes(out, argument)
	}
	for _, number := range []uint64{value.MaxGasAmount, value.GasUnitPrice, value.ExpirationTimestampSecs} {
		out = binary.LittleEndian.AppendUint64(out, number)
	}
	return append(out, value.ChainID)
}

var errPlain = errors.New("not a transaction")

type reader struct {
	data []byte
	err  error
}

func (r *reader) take(length uint64) []byte {
	if uint64(len(r.data)) < length {
		r.err = errPlain
		return make([]byte, addressLength)
	}
	taken := r.data[:length]
	r.data = r.data[length:]
	return taken
}

func (r *reader) length() uint64 {
	length, read := binary.Uvarint(r.data)
	if read <= 0 || length > uint64(len(r.data)) {
		r.err = errPlain
		return 0
	}
	r.data = r.data[read:]
	return length
}

func (r *reader) bytes() []byte { return append([]byte(nil), r.take(r.length())...) }

func (r *reader) text() string { return string(r.take(r.length())) }

func (r *reader) number() uint64 { return binary.LittleEndian.Uint64(r.take(8)) }

func (r *reader) address() (found address) {
	copy(found[:], r.take(addressLength))
	return found
}

func (r *reader) variant(number byte) {
	if r.take(1)[0] != number {
		r.err = errPlain
	}
}

func (r *reader) tags() []typeTag {
	tags := make([]typeTag, r.length())
	for i := range tags {
		if r.err != nil {
			break
		}
		r.variant(structure)
		tags[i].Struct = &structTag{r.address(), r.text(), r.text(), r.tags()}
	}
	return tags
}

func plainDecoded(data []byte) (*transaction, error) {
	r := &reader{data, nil}
	value := &transaction{Sender: r.address(), SequenceNumber: r.number()}
	r.variant(entryFunction)
	call := &function{Module: moduleID{r.address(), r.text()}, Function: r.text(), TyArgs: r.tags()}
	call.Args = make([][]byte, r.length())
	for i := range call.Args {
		call.Args[i] = r.bytes()
	}
	value.Payload.EntryFunction = call
	value.MaxGasAmount, value.GasUnitPrice, value.ExpirationTimestampSecs = r.number(), r.number(), r.number()
	value.ChainID = r.take(1)[0]
	if len(r.data) > 0 {
		r.err = errPlain
	}
	return value, r.err
}

func must[T any](value T, err error) T {
	if err != nil {
		log.Fatal(err)
	}
	return value
}

func processorTime() time.Duration {
	var usage syscall.Rusage
	if err := syscall.Getrusage(syscall.RUSAGE_SELF, &usage); err != nil {
		log.Fatal(err)
	}
	return time.Duration(usage.Utime.Nano() + usage.Stime.Nano())
}

// report prints the microseconds of processor time for a call, the least of all runs.
func report[T any](name string, call func() (T, error)) {
	measure := func(count int) time.Duration {
		start := processorTime()
		for i := 0; i < count; i++ {
			must(call())
		}
		return processorTime() - start
	}
	count := 1
	for measure(count) < run/10 {
		count *= 2
	}
	count = int(int64(count)*int64(run)/int64(measure(count))) + 1
	least := measure(count)
	for i := 1; i < runs; i++ {
		if time := measure(count); time < least {
			least = time
		}
	}
	fmt.Println(name, float64(least.Nanoseconds())/1000/float64(count))
}

// refused returns the call, which must fail.
func refused[T any](call func() (T, error)) func() (T, error) {
	return func() (T, error) {
		value, err := call()
		if err == nil {
			log.Fatal("not refused")
		}
		return value, nil
	}
}

func transfer(examples string) {
	read := func(name string) []byte { return must(os.ReadFile(filepath.Join(examples, name))) }
	registry := must(bcsproved.Open(read("aptos_registry.json"), bcsproved.Names{Addresses: []string{"AccountAddress"}}))
	defer registry.Close()
	text := read("aptos_transfer.json")
	data := must(hex.DecodeString(string(bytes.TrimSpace(read("aptos_transfer.hex")))))
	wrong, short := bytes.Replace(text, []byte(`"chain_id": 4`), []byte(`"chain_id": -4`), 1), data[:len(data)-1]
	decoded := func() (*transaction, error) {
		value := &transaction{}
		return value, registry.Unmarshal(format, data, value)
	}
	value := must(decoded())
	if !bytes.Equal(must(registry.Encode(format, value)), data) || !bytes.Equal(plainEncoded(value), data) ||
		!reflect.DeepEqual(must(plainDecoded(data)), value) {
		log.Fatal("the codecs differ")
	}
	report("transfer encode values", func() ([]byte, error) { return registry.Encode(format, value) })
	report("transfer encode text", func() ([]byte, error) { return registry.EncodeJSON(format, text) })
	report("transfer encode text-refused", refused(func() ([]byte, error) { return registry.EncodeJSON(format, wrong) }))
	report("transfer encode plain", func() ([]byte, error) { return plainEncoded(value), nil })
	report("transfer decode values", decoded)
	report("transfer decode values-refused", refused(func() (*transaction, error) {
		value := &transaction{}
		return value, registry.Unmarshal(format, short, value)
	}))
	report("transfer decode text", func() ([]byte, error) { return registry.DecodeJSON(format, data) })
	report("transfer decode text-refused", refused(func() ([]byte, error) { return registry.DecodeJSON(format, short) }))
	report("transfer decode plain", func() (*transaction, error) { return plainDecoded(data) })
}

func megabyte() {
	const format = `"BYTES"`
	registry := must(bcsproved.Open([]byte("{}")))
	defer registry.Close()
	value := make([]byte, megabyteLen)
	for i := range value {
		value[i] = byte(uint32(i) * 2654435761 >> 24)
	}
	data, text := must(registry.Encode(format, value)), []byte(`"`+hex.EncodeToString(value)+`"`)
	decoded := func() (value []byte, err error) {
		err = registry.Unmarshal(format, data, &value)
		return value, err
	}
	if !bytes.Equal(must(registry.DecodeJSON(format, data)), text) || !bytes.Equal(must(decoded()), value) {
		log.Fatal("the codecs differ")
	}
	report("bytes encode values", func() ([]byte, error) { return registry.Encode(format, value) })
	report("bytes encode text", func() ([]byte, error) { return registry.EncodeJSON(format, text) })
	report("bytes encode plain", func() ([]byte, error) { return appendBytes(nil, value), nil })
	report("bytes decode values", decoded)
	report("bytes decode text", func() ([]byte, error) { return registry.DecodeJSON(format, data) })
	report("bytes decode plain", func() ([]byte, error) {
		r := &reader{data, nil}
		return r.bytes(), r.err
	})
}

func main() {
	transfer(os.Args[1])
	megabyte()
}

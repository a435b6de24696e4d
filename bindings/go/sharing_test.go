package bcsproved

import (
	"bytes"
	"errors"
	"os"
	"os/exec"
	"runtime"
	"strconv"
	"strings"
	"sync"
	"syscall"
	"testing"
)

// pages returns how many pages of memory this process has in field `field` of /proc/self/statm: 1 those in use, 5 those it can
// write to.
func pages(t testing.TB, field int) int {
	t.Helper()
	told, err := os.ReadFile("/proc/self/statm")
	if err != nil {
		t.Fatal(err)
	}
	count, err := strconv.Atoi(strings.Fields(string(told))[field])
	if err != nil {
		t.Fatal(err)
	}
	return count
}

// limitMemory leaves this process that many more bytes. Addresses don't count: Go and the C library reserve some for each thread.
func limitMemory(t testing.TB, more int) {
	t.Helper()
	most := uint64(pages(t, 5)*os.Getpagesize() + more)
	if err := syscall.Setrlimit(syscall.RLIMIT_DATA, &syscall.Rlimit{Cur: most, Max: most}); err != nil {
		t.Fatal(err)
	}
}

// Each call succeeds, or finds the registry closed.
func TestClosingDuringCalls(t *testing.T) {
	for round := 0; round < 50; round++ {
		registry := open(t, shapes)
		var group sync.WaitGroup
		for goroutine := 0; goroutine < 8; goroutine++ {
			group.Add(1)
			go func(closes bool) {
				defer group.Done()
				for err := error(nil); err != ErrClosed; {
					if closes {
						registry.Close()
					}
					if _, err = registry.EncodeJSON("Shape", []byte(`"Dot"`)); err != nil && err != ErrClosed {
						t.Error(err)
						return
					}
				}
			}(goroutine == 7)
		}
		group.Wait()
	}
}

// slowCalls take long enough to be running when Close is called, and call C several times.
func slowCalls(t *testing.T) map[string]func(r *Registry) error {
	const count = 200_000
	list, table, numbers, entries := `{"SEQ":"U16"}`, `{"MAP":{"KEY":"U32","VALUE":"U8"}}`, make([]uint16, count), make([]pairOf[uint32, uint8], count)
	for i := range entries[1:] {
		entries[i].Key = uint32(i)
	}
	text, data := []byte("["+strings.Repeat("7,", count)+"x]"), append(uleb(count), make([]byte, 2*count)...)
	damaged := data[:len(data)-1]
	return map[string]func(r *Registry) error{
		"Encode": func(r *Registry) error { _, err := r.Encode(list, numbers); return err },
		"Encode, refused": func(r *Registry) error {
			_, err := r.Encode(table, entries)
			return expect(err, KindText, "RepeatedKey")
		},
		"Decode":       func(r *Registry) error { _, err := r.Decode(list, data); return err },
		"Unmarshal":    func(r *Registry) error { return r.Unmarshal(list, data, new([]uint16)) },
		"DecodePrefix": func(r *Registry) error { _, _, err := r.DecodePrefix(list, data); return err },
		"DecodePrefixJSON": func(r *Registry) error {
			_, _, err := r.DecodePrefixJSON(list, data)
			return err
		},
		"DecodeJSON, refused": func(r *Registry) error {
			_, err := r.DecodeJSON(list, damaged)
			return expect(err, KindBytes, "EndOfInput")
		},
		"EncodeJSON, refused": func(r *Registry) error {
			_, err := r.EncodeJSON(list, text)
			return expect(err, KindText, "NotJson")
		},
		"Explain": func(r *Registry) error {
			explained, err := r.Explain(list, damaged, FormWays)
			if err != nil {
				return err
			}
			return expect(explained.Damage, KindBytes, "EndOfInput")
		},
	}
}

// expect returns the error unless it is this refusal, with a place.
func expect(err error, kind Kind, reason string) error {
	refused, is := err.(*Error)
	if !is || refused == nil || refused.Kind != kind || refused.Reason != reason || refused.Message == "" {
		return err
	}
	return nil
}

// closedDuring closes a registry while a call runs, and returns the call's error; isSeen is whether the call was running then.
func closedDuring(registry *Registry, call func(r *Registry) error) (isSeen bool, err error) {
	ended := make(chan error, 1)
	go func() { ended <- call(registry) }()
	for registry.shared.lock.TryLock() { // it hasn't begun, or has ended
		registry.shared.lock.Unlock()
		runtime.Gosched()
		if len(ended) > 0 {
			return false, <-ended
		}
	}
	registry.Close()
	return true, <-ended
}

// A call that is running when Close is called ends with its own answer.
func TestClosingDuringSlowCalls(t *testing.T) {
	for name, call := range slowCalls(t) {
		isSeen := false
		for try := 0; try < 100 && !isSeen; try++ {
			registry := open(t, "{}")
			var err error
			if isSeen, err = closedDuring(registry, call); err != nil {
				t.Errorf("%s: %v", name, err)
			}
			registry.Close()
			if err := call(registry); err != ErrClosed {
				t.Errorf("%s of a closed registry: %v", name, err)
			}
		}
		if !isSeen {
			t.Errorf("%s always ended before it was seen", name)
		}
	}
}

// Registries that aren't closed are freed by the garbage collector. One needs almost a megabyte.
func TestCollecting(t *testing.T) {
	text := string(example(t, "many_containers.json"))
	before := pages(t, 1)
	for number := 1; number <= 500; number++ {
		if err := open(t, text).Check(`"U8"`); err != nil {
			t.Fatal(err)
		}
		if number%25 == 0 {
			runtime.GC()
		}
	}
	if grown := (pages(t, 1) - before) * os.Getpagesize(); grown > 150<<20 {
		t.Errorf("%d more bytes in use", grown)
	}
}

// Inputs, places and lengths may be above 2 to the 31. The memory is never read as a whole, and so needs no room.
func TestLongInputs(t *testing.T) {
	const length = 3_000_000_000
	data, err := syscall.Mmap(-1, 0, length+2, syscall.PROT_READ, syscall.MAP_ANON|syscall.MAP_PRIVATE|syscall.MAP_NORESERVE)
	if err != nil {
		t.Fatal(err)
	}
	defer syscall.Munmap(data)
	registry := open(t, "{}")
	array := `{"TUPLEARRAY":{"CONTENT":"U8","SIZE":3000000000}}`
	if scanned, err := registry.Scan(array, data); scanned != length || err != nil {
		t.Error(scanned, err)
	}
	part, err := registry.Part(`{"TUPLE":[`+array+`,"U16"]}`, data, "1")
	if err != nil || part == nil || part.Place != length || len(part.Data) != 2 {
		t.Error(part, err)
	}
	var refused *Error
	_, err = registry.Scan(`{"TUPLE":[`+array+`,"U32"]}`, data)
	if !errors.As(err, &refused) || refused.Place != length+2 || refused.At != "[1]" || refused.Reason != "EndOfInput" {
		t.Error(err)
	}
}

// A registry of containers with 31 levels between them, and a value with 500 of these.
var (
	deep     = `{"C":{"NEWTYPESTRUCT":` + strings.Repeat(`{"OPTION":`, 31) + `{"TYPENAME":"C"}` + strings.Repeat("}", 31) + `}}`
	deepData = append(bytes.Repeat([]byte{1}, 31*499), 0)
)

// Without memory a call returns ErrMemory. That takes a process of its own, which gets no more memory than it has.
func TestMemory(t *testing.T) {
	if os.Getenv("BCS_TEST_MEMORY") == "" {
		command := exec.Command(os.Args[0], "-test.run=^TestMemory$")
		command.Env = append(os.Environ(), "BCS_TEST_MEMORY=1")
		if told, err := command.CombinedOutput(); err != nil || !bytes.Contains(told, []byte("bcs: out of memory")) {
			t.Errorf("%v: %s", err, told)
		}
		return
	}
	registry := open(t, "{}").WithLimits(StandardLimits())
	limitMemory(t, 512<<20)
	units := []byte{0xfe, 0xff, 0xff, 0xff, 0x07}
	if out, err := registry.DecodeJSON(`{"SEQ":"UNIT"}`, units); err != ErrMemory {
		t.Fatal(len(out), err)
	}
	if !hasMemory(1<<20) || hasMemory(1<<30) || hasMemory(1<<63) {
		t.Fatal("an output of that length")
	}
	if out, answer := new(question).output(plain(0, nil, nil), 1<<30); out != nil || answer.status != 6 {
		t.Fatal(len(out), answer)
	}
	if length, err := registry.Scan(`{"SEQ":"UNIT"}`, units); length != 5 || err != nil {
		t.Fatal(length, err)
	}
	os.Stdout.WriteString(ErrMemory.Error())
}

// A limit on the stack holds for the threads of Go. With 8 MiB there is room for any value; with less, a call that needs more
// refuses, and others don't. That takes a process for each limit.
func TestStack(t *testing.T) {
	kibibytes := os.Getenv("BCS_TEST_STACK")
	if kibibytes == "" {
		for _, limit := range []string{"512", "8192"} {
			command := exec.Command("sh", "-c", `ulimit -s $BCS_TEST_STACK && exec "$0" "$@"`, os.Args[0], "-test.run=^TestStack$")
			command.Env = append(os.Environ(), "BCS_TEST_STACK="+limit)
			if told, err := command.CombinedOutput(); err != nil {
				t.Errorf("%v: %s", err, told)
			}
		}
		return
	}
	registry := open(t, deep)
	_, encoded := registry.EncodeJSON("C", bytes.Repeat([]byte{'['}, 50_000))
	_, opened := Open(bytes.Repeat([]byte{'['}, 50_000))
	_, scanned := registry.Scan("C", deepData)
	_, decoded := registry.Decode("C", deepData)
	for call, err := range map[string]error{"scan": scanned, "decode": decoded} {
		var refused *Error
		if isStack := errors.As(err, &refused) && refused.Kind == KindStack; isStack != (kibibytes == "512") {
			t.Errorf("%s with %s KiB: %v", call, kibibytes, err)
		}
	}
	for call, err := range map[string]error{"encode": encoded, "open": opened} {
		if err == nil || err.(*Error).Reason != "NotJson" {
			t.Errorf("%s with %s KiB: %v", call, kibibytes, err)
		}
	}
	if kibibytes == "512" && scanned.Error() != "refused: the thread has too little stack left" {
		t.Error(scanned)
	}
	if length, err := registry.Scan("C", []byte{1, 0, 0}); length != 2 || err != nil {
		t.Error(length, err)
	}
}

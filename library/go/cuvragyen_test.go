package cuvragyen

import (
	"bytes"
	"hash/crc32"
	"os"
	"testing"
)

// whole returns the log that the environment names.
func whole(t *testing.T) []byte {
	data, err := os.ReadFile(os.Getenv("CUVRAGYEN_LOG"))
	if err != nil {
		t.Fatal(err)
	}
	return data
}

// collect appends the lines of transactions, and their positions.
func collect(lines *[]byte, positions *[]uint32) func(*Log) error {
	return func(log *Log) error {
		copied, err := log.Lines()
		if err != nil {
			return err
		}
		header, err := log.Header()
		*lines = append(*lines, copied...)
		*positions = append(*positions, header.Position)
		return err
	}
}

func TestPieces(t *testing.T) {
	data := whole(t)
	var lines []byte
	var positions []uint32
	if err := Read(bytes.NewReader(data), collect(&lines, &positions)); err != nil || len(positions) == 0 {
		t.Fatal(err, positions)
	}
	log, err := Open()
	if err != nil {
		t.Fatal(err)
	}
	defer log.Close()
	var others []byte
	var ends []uint32
	for at := range data {
		if err := log.Push(data[at : at+1]); err != nil {
			t.Fatal(err)
		}
		if err := log.drain(collect(&others, &ends)); err != nil {
			t.Fatal(err)
		}
	}
	end, err := log.Stop()
	if err != nil || !end.IsWhole() || end.Offset != uint64(len(data)) || end.LastCommit != positions[len(positions)-1] {
		t.Fatal(err, end)
	}
	if !bytes.Equal(lines, others) {
		t.Fatal("other lines byte by byte")
	}
}

func TestFaults(t *testing.T) {
	data := whole(t)
	none := func(*Log) error { return nil }
	for _, it := range []struct {
		name    string
		log     []byte
		options []string
		wanted  Fault
	}{
		{"a log that is cut", data[:len(data)-1], nil, 100},
		{"other bytes", []byte("text"), nil, 102},
		{"an unknown option", data, []string{"colour=red"}, 3},
		{"a wrong value", data, []string{"table=orders"}, 4},
		{"a line feed", data, []string{"file=a\ntable=d.t"}, 4},
	} {
		if err := Read(bytes.NewReader(it.log), none, it.options...); err != it.wanted {
			t.Errorf("%s: %v", it.name, err)
		}
	}
}

func TestMisuse(t *testing.T) {
	log, err := Open()
	if err != nil {
		t.Fatal(err)
	}
	if _, err := log.View(); err != ErrNoTransaction {
		t.Error(err)
	}
	log.Close()
	log.Close()
	if err := log.Push(nil); err != Fault(2) {
		t.Error(err)
	}
	if _, err := log.Next(); err != Fault(2) {
		t.Error(err)
	}
	if _, err := log.Stop(); err != Fault(2) {
		t.Error(err)
	}
}

func TestCRC32(t *testing.T) {
	for _, data := range [][]byte{nil, []byte("123456789"), whole(t)} {
		if CRC32(data) != crc32.ChecksumIEEE(data) {
			t.Error(len(data))
		}
	}
}

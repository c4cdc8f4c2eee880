// Package cuvragyen reads the committed changes of MySQL's binary logs by the proved reader libcuvragyen.
//
// A log arrives in pieces of any lengths, and each transaction can be taken once its commit has arrived, as JSON lines:
//
//	err := cuvragyen.Read(file, func(log *cuvragyen.Log) error {
//		lines, err := log.View()
//		if err == nil {
//			_, err = os.Stdout.Write(lines)
//		}
//		return err
//	}, "file=binlog.000001", "table=shop.orders")
//
// With the option records=1 a transaction is a Record instead, with changes, rows and cells: Log.Record.
//
// libcuvragyen is linked by cgo: CGO_CFLAGS and CGO_LDFLAGS say where it is, if it isn't where the compiler looks.
package cuvragyen

// #cgo LDFLAGS: -lcuvragyen
// #include <cuvragyen.h>
import "C"

import (
	"errors"
	"io"
	"strconv"
	"strings"
	"unsafe"
)

const pieceLen = 1 << 17

// Fault says why a log can't be opened or read further: a number of cuvragyen.h, from 100 on a verdict.
type Fault uint32

// Error returns the name of a verdict, such as Checksum, or what was wrong with a call.
func (fault Fault) Error() string {
	switch fault {
	case C.CUVRAGYEN_CLOSED_HANDLE:
		return "the log is closed"
	case C.CUVRAGYEN_BAD_OPTION:
		return "an option's name is unknown"
	case C.CUVRAGYEN_BAD_VALUE:
		return "a value is wrong"
	case C.CUVRAGYEN_BAD_SCHEMA:
		return "the schema can't be read"
	}
	var name C.cuvragyen_view
	C.cuvragyen_verdict_name(C.uint32_t(fault), &name)
	return string(seen(name))
}

// ErrNoTransaction: there is no transaction; call Next first.
var ErrNoTransaction = errors.New("there is no transaction")

// Log is a binary log that arrives in pieces. Goroutines that share one have to take turns; different logs are independent.
type Log struct {
	handle C.cuvragyen
}

// Header is the event that committed a transaction: its time in seconds since 1970, its server, and the position after it.
type Header struct {
	Time, ServerID, Position uint32
}

// End says how the reading of a log ended: by End or a fault; the offset of the event that stopped it, or of the bytes after the last
// event; the position after the last commit, if there is one; whether a transaction was open, and whether the log ends within an event.
type End struct {
	Verdict         string
	Offset          uint64
	LastCommit      uint32
	HasLastCommit   bool
	IsOpen, IsCut   bool
	Remaining       uint64
	NewestEventType uint32
}

// IsWhole returns whether the log has no fault, and ends after an event and outside a transaction.
func (end End) IsWhole() bool {
	return end.Verdict == "End" && !end.IsOpen && !end.IsCut
}

// seen returns bytes that the library owns.
func seen(view C.cuvragyen_view) []byte {
	return unsafe.Slice((*byte)(view.at), int(view.len))
}

// first returns the address of bytes; the library wants one that isn't null for no bytes too.
func first(bytes []byte) *C.uint8_t {
	if len(bytes) == 0 {
		bytes = make([]byte, 1)
	}
	return (*C.uint8_t)(&bytes[0])
}

// SchemaFault says which line of a schema can't be read, from 1 on.
type SchemaFault struct {
	Line uint64
}

// Error returns what is wrong, with the line.
func (fault SchemaFault) Error() string {
	return "the schema can't be read: line " + strconv.FormatUint(fault.Line, 10)
}

// Open opens a log of which nothing has arrived; Close it. Each option is a text NAME=VALUE, as cuvragyen.h lists them.
func Open(options ...string) (*Log, error) {
	return OpenWithSchema(nil, options...)
}

// OpenWithSchema is Open with a schema that completes table maps: the text of a file as binlog-changes --schema takes it.
func OpenWithSchema(schema []byte, options ...string) (*Log, error) {
	for _, option := range options {
		if strings.Contains(option, "\n") {
			return nil, Fault(C.CUVRAGYEN_BAD_VALUE)
		}
	}
	text := []byte(strings.Join(options, "\n"))
	log := new(Log)
	var line C.uint64_t
	opened := C.cuvragyen_open_with_schema(&log.handle, (*C.char)(unsafe.Pointer(first(text))), C.size_t(len(text)), first(schema),
		C.size_t(len(schema)), &line)
	if opened == C.CUVRAGYEN_BAD_SCHEMA {
		return nil, SchemaFault{uint64(line)}
	}
	if opened != C.CUVRAGYEN_OK {
		return nil, Fault(opened)
	}
	return log, nil
}

// Push keeps the next bytes of the log, a piece of any length: a copy. Take its transactions before the next piece.
func (log *Log) Push(piece []byte) error {
	if pushed := C.cuvragyen_push(&log.handle, first(piece), C.size_t(len(piece))); pushed != C.CUVRAGYEN_OK {
		return Fault(pushed)
	}
	return nil
}

// Next goes on to the next transaction that the options select. It returns false if none is complete yet: push the next piece, or stop.
func (log *Log) Next() (bool, error) {
	switch found := C.cuvragyen_next(&log.handle); found {
	case C.CUVRAGYEN_TRANSACTION:
		return true, nil
	case C.CUVRAGYEN_OK:
		return false, nil
	default:
		return false, Fault(found)
	}
}

// found returns the error of a call that found no transaction.
func found(result C.uint32_t) error {
	switch result {
	case C.CUVRAGYEN_TRANSACTION:
		return nil
	case C.CUVRAGYEN_OK:
		return ErrNoTransaction
	}
	return Fault(result)
}

// View returns the JSON lines of the newest transaction without a copy: they are valid until the next call of the log but Header.
func (log *Log) View() ([]byte, error) {
	var shown C.cuvragyen_view
	if err := found(C.cuvragyen_show(&log.handle, &shown)); err != nil {
		return nil, err
	}
	return seen(shown), nil
}

// Lines returns a copy of the JSON lines of the newest transaction, each with a line feed.
func (log *Log) Lines() ([]byte, error) {
	shown, err := log.View()
	return append([]byte(nil), shown...), err
}

// Header returns the event that committed the newest transaction.
func (log *Log) Header() (Header, error) {
	var commit C.cuvragyen_header
	err := found(C.cuvragyen_commit(&log.handle, &commit))
	return Header{uint32(commit.time), uint32(commit.server_id), uint32(commit.position)}, err
}

// Stop ends the log, and returns how it ended.
func (log *Log) Stop() (End, error) {
	var end C.cuvragyen_end
	if stopped := C.cuvragyen_stop(&log.handle, &end); stopped != C.CUVRAGYEN_OK {
		return End{}, Fault(stopped)
	}
	return End{
		Verdict:         Fault(end.verdict).Error(),
		Offset:          uint64(end.offset),
		LastCommit:      uint32(end.last_commit),
		HasLastCommit:   bool(end.has_last_commit),
		IsOpen:          bool(end.is_open),
		IsCut:           bool(end.is_cut),
		Remaining:       uint64(end.remaining),
		NewestEventType: uint32(end.newest_type),
	}, nil
}

// Close closes the log, and frees what it has. A closed log stays closed.
func (log *Log) Close() {
	C.cuvragyen_close(&log.handle)
}

// drain gives each transaction that is complete to a function.
func (log *Log) drain(take func(*Log) error) error {
	for {
		if is, err := log.Next(); err != nil || !is {
			return err
		}
		if err := take(log); err != nil {
			return err
		}
	}
}

// Read reads a log to its end, and gives each transaction to a function, as the newest of the log. It returns the first error: of the
// source, of the function, or a Fault where the log can't be read further; the verdict End, if it isn't whole.
func Read(source io.Reader, take func(*Log) error, options ...string) error {
	log, err := Open(options...)
	if err != nil {
		return err
	}
	defer log.Close()
	piece := make([]byte, pieceLen)
	for {
		taken, failed := source.Read(piece)
		if err := log.Push(piece[:taken]); err != nil {
			return err
		}
		if err := log.drain(take); err != nil {
			return err
		}
		if failed == io.EOF {
			break
		}
		if failed != nil {
			return failed
		}
	}
	end, err := log.Stop()
	if err == nil && !end.IsWhole() {
		return Fault(C.CUVRAGYEN_END)
	}
	return err
}

// CRC32 returns the CRC-32 of bytes, with which MySQL checksums the events of a log.
func CRC32(bytes []byte) uint32 {
	return uint32(C.cuvragyen_crc32(first(bytes), C.size_t(len(bytes))))
}

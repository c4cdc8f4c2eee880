package cuvragyen

import (
	"encoding/binary"
	"errors"
	"math"
)

// The kinds of a record's elements.
const (
	Insert          = 1
	Update          = 2
	Delete          = 3
	StatementChange = 4
	tableElement    = 5
)

// CellKind says what a cell is, as docs/library/RECORDS.md lists it.
type CellKind uint8

// The kinds of cells: Absent is a column that the log hasn't in the image.
const (
	Absent      CellKind = 0
	Null        CellKind = 1
	Signed      CellKind = 2
	Unsigned    CellKind = 3
	Float       CellKind = 4
	Double      CellKind = 5
	Bytes       CellKind = 8
	Decimal     CellKind = 9
	Time        CellKind = 10
	JSON        CellKind = 11
	JSONUpdates CellKind = 12
)

// ErrNoRecord: the bytes aren't a record of version 1; open the log with records=1.
var ErrNoRecord = errors.New("the bytes aren't a record: open the log with records=1")

// Cell is a cell of a row. Text has the bytes of the kinds from Bytes on, without a copy.
type Cell struct {
	Kind CellKind
	bits uint64
	Text []byte
}

// Int returns the number of a cell of kind Signed.
func (cell Cell) Int() int64 { return int64(cell.bits) }

// Uint returns the number of a cell of kind Unsigned.
func (cell Cell) Uint() uint64 { return cell.bits }

// Float returns the number of a cell of kind Float or Double.
func (cell Cell) Float() float64 {
	if cell.Kind == Float {
		return float64(math.Float32frombits(uint32(cell.bits)))
	}
	return math.Float64frombits(cell.bits)
}

// Column is a column of a table. Collation is 63 for bytes; 0: it isn't known, or has none.
type Column struct {
	Name                         string
	Type                         uint8
	IsUnsigned, IsKey, CanBeNull bool
	Collation                    uint16
	Members                      [][]byte
}

// Table is a table: its names and its columns.
type Table struct {
	Database, Name string
	Columns        []Column
}

// Row is a row: its image before the change, of an update or a delete, and the one after it, of an update or an insert.
type Row struct {
	Before, After []Cell
}

// Change is what an event changed: RowCount rows of Table, or a statement, whose Database and Statement are there.
type Change struct {
	Kind                uint32
	Table               *Table
	Time, Position      uint32
	RowCount            uint64
	Database, Statement []byte
	cells               []byte
}

// Record is a transaction as a binary record. It is valid until its log goes on; one of bytes of your own for good.
type Record struct {
	ChangeCount, RowCount           uint64
	Begin, Position, Time, ServerID uint32
	GTID                            string
	elements                        []byte
}

// reader takes numbers and texts; after bytes that are too short it takes zeros, and failed is true.
type reader struct {
	rest   []byte
	failed bool
}

func (r *reader) bytes(length uint64) []byte {
	if length > uint64(len(r.rest)) {
		r.rest, r.failed = nil, true
		return nil
	}
	taken := r.rest[:length:length]
	r.rest = r.rest[length:]
	return taken
}

func (r *reader) byte() byte {
	if taken := r.bytes(1); taken != nil {
		return taken[0]
	}
	return 0
}

func (r *reader) half() uint32 {
	if taken := r.bytes(4); taken != nil {
		return binary.LittleEndian.Uint32(taken)
	}
	return 0
}

func (r *reader) word() uint64 {
	if taken := r.bytes(8); taken != nil {
		return binary.LittleEndian.Uint64(taken)
	}
	return 0
}

func (r *reader) text() []byte { return r.bytes(r.word()) }

// ReadRecord reads the head of a record. The record keeps the bytes.
func ReadRecord(data []byte) (*Record, error) {
	r := &reader{rest: data}
	version, _, length := r.half(), r.half(), r.word()
	record := &Record{ChangeCount: r.word(), RowCount: r.word(), Begin: r.half(), Position: r.half(), Time: r.half(), ServerID: r.half()}
	r.word()
	record.GTID = string(r.text())
	record.elements = r.rest
	if r.failed || version != 1 || length != uint64(len(data)) {
		return nil, ErrNoRecord
	}
	return record, nil
}

// Record returns the newest transaction as a record without a copy, of a log with the option records=1. It is valid until the next call of
// the log but Header.
func (log *Log) Record() (*Record, error) {
	shown, err := log.View()
	if err != nil {
		return nil, err
	}
	return ReadRecord(shown)
}

func (r *reader) table() *Table {
	table := &Table{Database: string(r.text()), Name: string(r.text())}
	for count := r.word(); count > 0 && !r.failed; count-- {
		column := Column{Type: r.byte()}
		bits := r.byte()
		column.IsUnsigned, column.IsKey, column.CanBeNull = bits&1 != 0, bits&2 != 0, bits&4 != 0
		column.Collation = uint16(r.byte()) | uint16(r.byte())<<8
		members := r.word()
		column.Name = string(r.text())
		for ; members > 0 && !r.failed; members-- {
			column.Members = append(column.Members, r.text())
		}
		table.Columns = append(table.Columns, column)
	}
	return table
}

// Changes gives each change to a function, in the order of the log, up to its first error, which it returns.
func (record *Record) Changes(take func(*Change) error) error {
	var tables []*Table
	for r := (&reader{rest: record.elements}); len(r.rest) > 0; {
		kind, index := r.half(), r.half()
		content := &reader{rest: r.text()}
		change := &Change{Kind: kind}
		switch kind {
		case tableElement:
			tables = append(tables, content.table())
			continue
		case Insert, Update, Delete:
			if r.failed || uint64(index) >= uint64(len(tables)) {
				return ErrNoRecord
			}
			change.Table = tables[index]
			change.Time, change.Position, change.RowCount = content.half(), content.half(), content.word()
			change.cells = content.rest
		case StatementChange:
			change.Time, change.Position, change.RowCount = content.half(), content.half(), 1
			change.Database, change.Statement = content.text(), content.text()
		default:
			continue
		}
		if r.failed || content.failed {
			return ErrNoRecord
		}
		if err := take(change); err != nil {
			return err
		}
	}
	return nil
}

func (r *reader) image(cells []Cell) []Cell {
	for at := range cells {
		cell := Cell{Kind: CellKind(r.byte())}
		if cell.Kind >= Signed {
			cell.bits = r.word()
		}
		if cell.Kind >= Bytes {
			cell.Text = r.bytes(cell.bits)
		}
		cells[at] = cell
	}
	return cells
}

// Rows gives each row to a function, up to its first error, which it returns. The cells are valid until the function returns.
func (change *Change) Rows(take func(Row) error) error {
	if change.Table == nil {
		return nil
	}
	r := &reader{rest: change.cells}
	count := len(change.Table.Columns)
	first, second := make([]Cell, count), make([]Cell, count)
	for left := change.RowCount; left > 0 && !r.failed; left-- {
		var row Row
		switch change.Kind {
		case Insert:
			row.After = r.image(first)
		case Delete:
			row.Before = r.image(first)
		default:
			row.Before, row.After = r.image(first), r.image(second)
		}
		if err := take(row); err != nil {
			return err
		}
	}
	if r.failed {
		return ErrNoRecord
	}
	return nil
}

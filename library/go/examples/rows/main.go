// rows prints each changed row of logs with its cells, through binary records: rows FILE..
//
// A line is what happened, the table, the position after the event, and the images: a cell is its column, "=", a letter for its kind, and
// its value; bytes are hexadecimal.
package main

import (
	"bufio"
	"fmt"
	"math"
	"os"

	"cuvragyen"
)

func value(cell cuvragyen.Cell) string {
	switch cell.Kind {
	case cuvragyen.Absent:
		return "A"
	case cuvragyen.Null:
		return "N"
	case cuvragyen.Signed:
		return fmt.Sprintf("i%d", cell.Int())
	case cuvragyen.Unsigned:
		return fmt.Sprintf("u%d", cell.Uint())
	case cuvragyen.Float:
		return fmt.Sprintf("f%08x", math.Float32bits(float32(cell.Float())))
	case cuvragyen.Double:
		return fmt.Sprintf("d%016x", math.Float64bits(cell.Float()))
	case cuvragyen.Decimal:
		return "D" + string(cell.Text)
	case cuvragyen.Time:
		return fmt.Sprintf("T%x", cell.Text)
	case cuvragyen.JSON:
		return fmt.Sprintf("J%x", cell.Text)
	case cuvragyen.JSONUpdates:
		return fmt.Sprintf("U%x", cell.Text)
	}
	return fmt.Sprintf("b%x", cell.Text)
}

func image(out *bufio.Writer, table *cuvragyen.Table, cells []cuvragyen.Cell) {
	if cells == nil {
		return
	}
	fmt.Fprint(out, " |")
	for at, cell := range cells {
		fmt.Fprintf(out, " %x=%s", table.Columns[at].Name, value(cell))
	}
}

func print(out *bufio.Writer, change *cuvragyen.Change) error {
	if change.Kind == cuvragyen.StatementChange {
		fmt.Fprintf(out, "statement %x %d | %x\n", change.Database, change.Position, change.Statement)
		return nil
	}
	kind := map[uint32]string{cuvragyen.Insert: "insert", cuvragyen.Update: "update", cuvragyen.Delete: "delete"}[change.Kind]
	return change.Rows(func(row cuvragyen.Row) error {
		fmt.Fprintf(out, "%s %x.%x %d", kind, change.Table.Database, change.Table.Name, change.Position)
		image(out, change.Table, row.Before)
		image(out, change.Table, row.After)
		_, err := fmt.Fprintln(out)
		return err
	})
}

func main() {
	out := bufio.NewWriter(os.Stdout)
	defer out.Flush()
	for _, path := range os.Args[1:] {
		file, err := os.Open(path)
		if err == nil {
			err = cuvragyen.Read(file, func(log *cuvragyen.Log) error {
				record, err := log.Record()
				if err != nil {
					return err
				}
				return record.Changes(func(change *cuvragyen.Change) error { return print(out, change) })
			}, "records=1")
			file.Close()
		}
		if err != nil {
			fmt.Fprintf(os.Stderr, "rows: %s: %v\n", path, err)
		}
	}
}

// Prints the changes of logs as JSON lines.
package main

import (
	"bufio"
	"fmt"
	"os"
	"path/filepath"

	"cuvragyen"
)

func lines(path string, out *bufio.Writer) error {
	file, err := os.Open(path)
	if err != nil {
		return err
	}
	defer file.Close()
	return cuvragyen.Read(file, func(log *cuvragyen.Log) error {
		shown, err := log.View()
		if err == nil {
			_, err = out.Write(shown)
		}
		return err
	}, "file="+filepath.Base(path))
}

func main() {
	out := bufio.NewWriter(os.Stdout)
	defer out.Flush()
	for _, path := range os.Args[1:] {
		if err := lines(path, out); err != nil {
			fmt.Fprintf(os.Stderr, "%s: %v\n", path, err)
		}
	}
}

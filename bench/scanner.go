// Scanner scans the files that it is given with Go's own scanner, and prints how many files, bytes,
// tokens and faults there were. It is what bench/lexer compares with.
package main

import (
	"fmt"
	"go/scanner"
	"go/token"
	"os"
)

func main() {
	var bytes, tokens, faults int
	names := os.Args[1:]
	for _, name := range names {
		text, err := os.ReadFile(name)
		if err != nil {
			fmt.Fprintln(os.Stderr, err)
			os.Exit(2)
		}
		bytes += len(text)
		file := token.NewFileSet().AddFile(name, -1, len(text))
		var s scanner.Scanner
		s.Init(file, text, func(token.Position, string) { faults++ }, 0)
		for _, kind, _ := s.Scan(); kind != token.EOF; _, kind, _ = s.Scan() {
			tokens++
		}
	}
	fmt.Println("files", len(names), "bytes", bytes, "tokens", tokens, "faults", faults)
}

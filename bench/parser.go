// Parser parses the files that it is given with Go's own parser, and prints how many files, bytes,
// declarations and faults there were. It is what bench/parser compares with. Where the word before the
// files is -keep, it keeps each tree and each file's lines to the end, and also prints how many bytes
// are then in use, once what is no longer reached has been let go.
package main

import (
	"fmt"
	"go/ast"
	"go/parser"
	"go/token"
	"os"
	"runtime"
)

func main() {
	var bytes, declarations, faults int
	var kept []*ast.File
	names := os.Args[1:]
	keeps := len(names) > 0 && names[0] == "-keep"
	if keeps {
		names = names[1:]
	}
	places := token.NewFileSet()
	for _, name := range names {
		text, err := os.ReadFile(name)
		if err != nil {
			fmt.Fprintln(os.Stderr, err)
			os.Exit(2)
		}
		bytes += len(text)
		if !keeps {
			places = token.NewFileSet()
		}
		file, err := parser.ParseFile(places, name, text, parser.SkipObjectResolution)
		if err != nil {
			faults++
			continue
		}
		declarations += len(file.Decls)
		if keeps {
			kept = append(kept, file)
		}
	}
	fmt.Print("files ", len(names), " bytes ", bytes, " declarations ", declarations, " faults ", faults)
	if keeps {
		var memory runtime.MemStats
		runtime.GC()
		runtime.ReadMemStats(&memory)
		fmt.Print(" live ", memory.HeapAlloc)
		runtime.KeepAlive(kept)
		runtime.KeepAlive(places)
	}
	fmt.Println()
}

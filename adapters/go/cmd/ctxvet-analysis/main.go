// The command ctxvet-analysis runs the analyzer ctxvet alone. It starts the program ctxvet, which has to be on PATH.
package main

import (
	"fmt"
	"os"

	"golang.org/x/tools/go/analysis/singlechecker"

	ctxvet "example.org/ctxvet/adapters/go"
)

func main() {
	// Else each package would tell of it, and all that import it.
	if _, err := ctxvet.Program(); err != nil {
		fmt.Fprintln(os.Stderr, "ctxvet:", err)
		os.Exit(1)
	}
	singlechecker.Main(ctxvet.Analyzer)
}

// Package ctxvet runs the program ctxvet as a check of golang.org/x/tools/go/analysis: so it can stand in singlechecker
// and multichecker, golangci-lint, nogo and a gopls of one's own.
//
// The program is run once for each package, as the go command runs it under `go vet -vettool`. What is found of a
// package is kept as a fact of it, which the units of packages that import it are told.
package ctxvet

import (
	"flag"
	"fmt"
	"path/filepath"
	"strings"

	"golang.org/x/tools/go/analysis"
)

// Path is the program that is run. Where it is empty, the one called ctxvet on PATH is.
var Path string

// Page is where the codes of findings are explained. Whoever publishes this module sets the address of the repository.
const Page = "https://example.org/ctxvet/docs/CODES.md"

// Analyzer finds cancel functions of contexts that may not be called, and error groups that may not be waited for.
var Analyzer = &analysis.Analyzer{
	Name:      "ctxvet",
	Doc:       doc,
	Flags:     flags(),
	Run:       run,
	FactTypes: []analysis.Fact{new(Vetx)},
}

const doc = `find cancel functions that may not be called

ctxvet follows each path through each function. It finds cancel functions of
contexts that may not be called at a return, and error groups that may not be
waited for. Facts tell it what functions of imported packages do.

It runs the program ctxvet, which has to be on PATH.`

// Vetx is what the program keeps of a package for those that import it.
type Vetx struct{ Bytes []byte }

// AFact makes it a fact.
func (*Vetx) AFact() {}

func (v *Vetx) String() string { return string(v.Bytes) }

// What the flags say, which are those of a unit.
var (
	edition, facts, baseline           string
	tests, why, accepted, noKnownFacts bool
)

func flags() flag.FlagSet {
	var set flag.FlagSet
	set.StringVar(&edition, "edition", "", "judge by this edition of the rules, 1 or 2")
	set.StringVar(&facts, "facts", "", "take this file of declared facts")
	set.BoolVar(&noKnownFacts, "no-std-facts", false, "take Go's own library as unknown, where it has no facts")
	set.StringVar(&baseline, "baseline", "", "accept the findings of this report in JSON")
	set.BoolVar(&tests, "tests", false, "read test files too")
	set.BoolVar(&why, "why", false, "tell of each finding why it stands there")
	set.BoolVar(&accepted, "accepted", false, "tell accepted findings too, with their reasons")
	return set
}

// words are the words before the name of the unit's file.
func words() ([]string, error) {
	told := []string{"-json", fmt.Sprintf("-tests=%t", tests), fmt.Sprintf("-why=%t", why)}
	told = append(told, fmt.Sprintf("-accepted=%t", accepted))
	if noKnownFacts {
		told = append(told, "-no-std-facts")
	}
	if edition != "" {
		told = append(told, "-edition="+edition)
	}
	for _, file := range []struct{ flag, name string }{{"facts", facts}, {"baseline", baseline}} {
		if file.name == "" {
			continue
		}
		name, err := filepath.Abs(file.name)
		if err != nil {
			return nil, err
		}
		told = append(told, "-"+file.flag+"="+name)
	}
	return told, nil
}

func run(pass *analysis.Pass) (interface{}, error) {
	files, err := sourcesOf(pass)
	if err != nil || len(files) == 0 {
		return nil, err
	}
	findings, vetx, err := judge(pass, files)
	if err != nil {
		return nil, fmt.Errorf("%s: %w", pass.Pkg.Path(), err)
	}
	pass.ExportPackageFact(&Vetx{vetx})
	for _, found := range findings {
		if err := report(pass, files, found); err != nil {
			return nil, err
		}
	}
	return nil, nil
}

func report(pass *analysis.Pass, files []source, found finding) error {
	file, pos, err := place(pass, files, found.Posn)
	if err != nil {
		return err
	}
	told := analysis.Diagnostic{
		Pos:      pos,
		End:      end(file, pos, found.Message),
		Category: found.Category,
		Message:  strings.TrimSpace(found.Category + " " + found.Message),
	}
	for _, step := range found.Related {
		if _, pos, err := place(pass, files, step.Posn); err == nil {
			told.Related = append(told.Related, analysis.RelatedInformation{Pos: pos, Message: step.Message})
		}
	}
	for _, suggested := range found.Fixes {
		if edits, ok := editsOf(pass, files, suggested); ok {
			told.SuggestedFixes = append(told.SuggestedFixes, analysis.SuggestedFix{Message: suggested.Message, TextEdits: edits})
		}
	}
	pass.Report(told)
	return nil
}

package ctxvet

import (
	"fmt"
	"go/token"
	"os"
	"os/exec"
	"path/filepath"
	"regexp"
	"sort"
	"strings"
	"testing"

	"golang.org/x/tools/go/analysis"
	"golang.org/x/tools/go/analysis/analysistest"
)

// The program is that of the variable CTXVET, else the one that comes along in the repository.
func TestMain(m *testing.M) {
	name := os.Getenv("CTXVET")
	if name == "" {
		name = filepath.Join("..", "..", "release", "ctxvet")
	}
	path, err := filepath.Abs(name)
	if err == nil {
		_, err = os.Stat(path)
	}
	if err != nil {
		fmt.Fprintln(os.Stderr, err)
		os.Exit(1)
	}
	Path = path
	os.Exit(m.Run())
}

// with sets flags of the analyzer for one test.
func with(t *testing.T, flags ...string) {
	for _, flag := range flags {
		name, value, _ := strings.Cut(flag, "=")
		before := Analyzer.Flags.Lookup(name).Value.String()
		if err := Analyzer.Flags.Set(name, value); err != nil {
			t.Fatal(err)
		}
		t.Cleanup(func() { Analyzer.Flags.Set(name, before) })
	}
}

// What is kept of pool is a fact of it, and work is judged by that.
func TestFactsAcrossPackages(t *testing.T) {
	analysistest.Run(t, analysistest.TestData(), Analyzer, "pool", "work", "relies", "group")
}

func TestTestFiles(t *testing.T) {
	with(t, "tests=true")
	found := strings.Join(told(t, "tested"), "\n")
	if want := "tested_test.go:11:3 LC05 return LC05 end "; strings.Count(found, want) != 1 {
		t.Errorf("got %q, and %q is wanted once", found, want)
	}
}

// What is suggested is done. The program in release may be of earlier sources, which suggest nothing.
func TestSuggestedFixes(t *testing.T) {
	if _, err := os.Stat(filepath.Join(filepath.Dir(Path), "BEHIND")); err == nil {
		t.Skip("the program is of earlier sources")
	}
	analysistest.RunWithSuggestedFixes(t, analysistest.TestData(), Analyzer, "fixes")
}

func TestAcceptedFindings(t *testing.T) {
	with(t, "accepted=true")
	analysistest.Run(t, analysistest.TestData(), Analyzer, "accepts")
}

// By the first edition each package that imports one with findings has one too, and no message has a name.
func TestEdition(t *testing.T) {
	with(t, "edition=1")
	found := told(t, "edition")
	want := []string{
		`edition.go:3:8 LC13 "context" LC13 import is not yes`,
		"edition.go:8:3 LC05 return LC05 may not have been called at this return",
	}
	if strings.Join(found, "\n") != strings.Join(want, "\n") {
		t.Errorf("got %q, and %q is wanted", found, want)
	}
}

// Of each finding its place, category, the text up to its end, and the places of its notes.
func TestEndsAndRelatedPlaces(t *testing.T) {
	with(t, "why=true")
	found := told(t, "work", "relies")
	wanted := []string{
		`^work\.go:13:3 LC05 return LC05 end .*; work\.go:11:7 .* obtained.*; work\.go:12:2 `,
		`^work\.go:28:2 LC03 - LC03 `,
		`^relies\.go:6:2 LC13 "work" LC13 work `,
	}
	for i, want := range wanted {
		if i >= len(found) || !regexp.MustCompile(want).MatchString(found[i]) {
			t.Errorf("no %s as number %d of %q", want, i, found)
		}
	}
}

// told gives what the analyzer reports of packages of testdata, in the order of these, each once.
func told(t *testing.T, names ...string) []string {
	found, lines := map[string][]string{}, []string{}
	for _, result := range analysistest.Run(noted{t}, analysistest.TestData(), Analyzer, names...) {
		var all []string
		for _, one := range result.Diagnostics {
			all = append(all, shown(t, result.Pass.Fset, one))
		}
		if path := result.Pass.Pkg.Path(); len(all) > 0 {
			found[path] = all
		}
	}
	for _, name := range names {
		lines = append(lines, found[name]...)
	}
	return lines
}

// shown is a finding in a line: place, category, what is marked, message, and the notes.
func shown(t *testing.T, files *token.FileSet, found analysis.Diagnostic) string {
	at := func(pos token.Pos) string {
		here := files.Position(pos)
		return fmt.Sprintf("%s:%d:%d", filepath.Base(here.Filename), here.Line, here.Column)
	}
	marked, here := "-", files.Position(found.Pos)
	if found.End.IsValid() {
		text, err := os.ReadFile(here.Filename)
		if err != nil {
			t.Fatal(err)
		}
		marked = string(text[here.Offset:files.Position(found.End).Offset])
	}
	line := fmt.Sprintf("%s %s %s %s", at(found.Pos), found.Category, marked, found.Message)
	for _, step := range found.Related {
		line += fmt.Sprintf("; %s %s", at(step.Pos), step.Message)
	}
	return line
}

// noted passes over what comments want, since the caller looks at more.
type noted struct{ t *testing.T }

func (n noted) Errorf(format string, args ...interface{}) { n.t.Logf(format, args...) }

func TestNoProgram(t *testing.T) {
	before := Path
	defer func() { Path = before }()
	Path = ""
	t.Setenv("PATH", t.TempDir())
	if _, err := Program(); err == nil || !strings.Contains(err.Error(), "no program: set ctxvet.Path") {
		t.Errorf("got %v", err)
	}
	Path = filepath.Join(t.TempDir(), "none")
	if _, err := findings(exec.Command(Path)); err == nil || !strings.Contains(err.Error(), "none") {
		t.Errorf("got %v", err)
	}
}

func TestWrongFlag(t *testing.T) {
	with(t, "facts="+filepath.Join(t.TempDir(), "none.json"))
	words, err := words()
	if err != nil {
		t.Fatal(err)
	}
	if _, err := findings(exec.Command(Path, append(words, "none.cfg")...)); err == nil {
		t.Error("a file of facts that is not there is no fault")
	}
}

var line = regexp.MustCompile(`(?m)^(.+?):(\d+:\d+: LC\d\d .+)$`)

// lines are the lines of findings in what a command prints, each once.
func lines(t *testing.T, folder string, command *exec.Cmd) string {
	command.Dir = folder
	printed, err := command.CombinedOutput()
	if _, isExit := err.(*exec.ExitError); err != nil && !isExit {
		t.Fatal(err)
	}
	seen := map[string]bool{}
	for _, found := range line.FindAllStringSubmatch(string(printed), -1) {
		name := found[1]
		if !filepath.IsAbs(name) {
			name = filepath.Join(folder, name)
		}
		seen[name+":"+found[2]] = true
	}
	var all []string
	for one := range seen {
		all = append(all, one)
	}
	sort.Strings(all)
	if len(all) == 0 {
		t.Fatalf("%v prints no finding: %s", command.Args, printed)
	}
	return strings.Join(all, "\n")
}

// command builds ctxvet-analysis.
func command(t *testing.T) string {
	name := filepath.Join(t.TempDir(), "ctxvet-analysis")
	if out, err := exec.Command("go", "build", "-o", name, "./cmd/ctxvet-analysis").CombinedOutput(); err != nil {
		t.Fatalf("%v: %s", err, out)
	}
	link := filepath.Join(t.TempDir(), "ctxvet")
	if err := os.Symlink(Path, link); err != nil {
		t.Fatal(err)
	}
	t.Setenv("PATH", filepath.Dir(link)+string(os.PathListSeparator)+os.Getenv("PATH"))
	return name
}

// The command finds what `go vet -vettool` finds: on a module with tests, a file with C and files of two systems.
func TestAsUnderGoVet(t *testing.T) {
	module := os.Getenv("CTXVET_MODULE")
	if module == "" {
		module = filepath.Join("..", "..", "examples", "bazel")
	}
	module, err := filepath.Abs(module)
	if err != nil {
		t.Fatal(err)
	}
	analysis := command(t)
	t.Setenv("GO111MODULE", "on")
	for _, words := range [][]string{{"./..."}, {"-tests", "./..."}} {
		want := lines(t, module, exec.Command("go", append([]string{"vet", "-vettool=" + Path}, words...)...))
		for _, command := range []*exec.Cmd{
			exec.Command(analysis, words...),
			exec.Command("go", append([]string{"vet", "-vettool=" + analysis}, words...)...),
		} {
			if got := lines(t, module, command); got != want {
				t.Errorf("%v:\n%s\nwanted:\n%s", command.Args, got, want)
			}
		}
	}
}

// The same on packages below GOPATH, where CTXVET_PACKAGES names some.
func TestAsUnderGoVetOnPackages(t *testing.T) {
	words := strings.Fields(os.Getenv("CTXVET_PACKAGES"))
	if len(words) == 0 {
		t.Skip("CTXVET_PACKAGES names no packages")
	}
	analysis := command(t)
	t.Setenv("GO111MODULE", "off")
	folder := t.TempDir()
	want := lines(t, folder, exec.Command("go", append([]string{"vet", "-vettool=" + Path}, words...)...))
	if got := lines(t, folder, exec.Command(analysis, append([]string{"-test=false"}, words...)...)); got != want {
		t.Errorf("got:\n%s\nwanted:\n%s", got, want)
	}
	t.Logf("%d findings", strings.Count(want, "\n")+1)
}

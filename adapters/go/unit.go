package ctxvet

import (
	"bytes"
	"encoding/json"
	"errors"
	"fmt"
	"go/ast"
	"go/types"
	"os"
	"os/exec"
	"path/filepath"
	"strconv"
	"strings"

	"golang.org/x/tools/go/analysis"
)

// A unit is what the program has to know of a package, in the form that the go command has for it.
type unit struct {
	ID          string
	Dir         string
	ImportPath  string
	GoFiles     []string
	ImportMap   map[string]string
	PackageVetx map[string]string
	VetxOnly    bool
	VetxOutput  string
}

// A finding is what the program tells of one. Posn is FILE:LINE:COLUMN.
type finding struct {
	Category string
	Posn     string
	Message  string
	Related  []struct{ Posn, Message string }
	Fixes    []fix `json:"suggested_fixes"`
}

// A fix is what the program suggests for a finding. Offsets are in bytes, from 0.
type fix struct {
	Message string
	Edits   []struct {
		Filename   string
		Start, End int
		New        string
	}
}

// judge runs the program on the package. It gives the findings, and what is kept for packages that import this one.
func judge(pass *analysis.Pass, files []source) ([]finding, []byte, error) {
	program, err := Program()
	if err != nil {
		return nil, nil, err
	}
	room, err := os.MkdirTemp("", "ctxvet")
	if err != nil {
		return nil, nil, err
	}
	defer os.RemoveAll(room)
	told, err := unitOf(pass, files, room)
	if err != nil {
		return nil, nil, err
	}
	before, err := words()
	if err != nil {
		return nil, nil, err
	}
	config := filepath.Join(room, "unit.cfg")
	text, err := json.Marshal(told)
	if err != nil {
		return nil, nil, err
	}
	if err := os.WriteFile(config, text, 0o666); err != nil {
		return nil, nil, err
	}
	found, err := findings(exec.Command(program, append(before, config)...))
	if err != nil {
		return nil, nil, err
	}
	vetx, err := os.ReadFile(told.VetxOutput)
	return found, vetx, err
}

// Program is the path of the program that is run.
func Program() (string, error) {
	if Path != "" {
		return Path, nil
	}
	found, err := exec.LookPath("ctxvet")
	if err != nil {
		return "", fmt.Errorf("no program: set ctxvet.Path, or put ctxvet into a folder on PATH (%w)", err)
	}
	return found, nil
}

// unitOf tells of the package. What is kept of each import goes into a file of the room.
func unitOf(pass *analysis.Pass, files []source, room string) (*unit, error) {
	told := &unit{
		ID:          pass.Pkg.Path(),
		Dir:         filepath.Dir(files[0].name),
		ImportPath:  pass.Pkg.Path(),
		ImportMap:   map[string]string{},
		PackageVetx: map[string]string{},
		VetxOutput:  filepath.Join(room, "unit.vetx"),
	}
	for _, file := range files {
		told.GoFiles = append(told.GoFiles, file.name)
		for _, spec := range file.tree.Imports {
			if err := told.add(pass, spec, room); err != nil {
				return nil, err
			}
		}
	}
	return told, nil
}

// add tells which package an import means, and what is kept of that.
func (told *unit) add(pass *analysis.Pass, spec *ast.ImportSpec, room string) error {
	object := pass.TypesInfo.Implicits[spec]
	if spec.Name != nil {
		object = pass.TypesInfo.Defs[spec.Name]
	}
	path, err := strconv.Unquote(spec.Path.Value)
	name, isPackage := object.(*types.PkgName)
	if err != nil || !isPackage {
		return nil // It is one of a text that does not compile.
	}
	meant := name.Imported()
	told.ImportMap[path] = meant.Path()
	var kept Vetx
	if told.PackageVetx[meant.Path()] != "" || !pass.ImportPackageFact(meant, &kept) {
		return nil
	}
	file := filepath.Join(room, strconv.Itoa(len(told.PackageVetx))+".vetx")
	told.PackageVetx[meant.Path()] = file
	return os.WriteFile(file, kept.Bytes, 0o666)
}

// findings runs the program, and reads what it prints: {ID:{"ctxvet":[..]}}.
func findings(command *exec.Cmd) ([]finding, error) {
	var printed, wrong bytes.Buffer
	command.Stdout, command.Stderr = &printed, &wrong
	if err := command.Run(); err != nil {
		if text := strings.TrimSpace(wrong.String()); text != "" {
			return nil, errors.New(text)
		}
		return nil, fmt.Errorf("%s: %w", command.Path, err)
	}
	if printed.Len() == 0 {
		return nil, nil
	}
	var units map[string]map[string][]finding
	if err := json.Unmarshal(printed.Bytes(), &units); err != nil {
		return nil, fmt.Errorf("%s prints something else than findings: %w", command.Path, err)
	}
	var all []finding
	for _, told := range units {
		all = append(all, told["ctxvet"]...)
	}
	return all, nil
}

package ctxvet

import (
	"fmt"
	"go/ast"
	"go/token"
	"path/filepath"
	"regexp"
	"strconv"
	"strings"

	"golang.org/x/tools/go/analysis"
)

// A source is a file that the program reads, and the tree that the pass has of it.
type source struct {
	name string // absolute
	tree *ast.File
	// The tree is that of the file itself. Else it is that of a text which cgo made of it.
	own bool
}

// sourcesOf gives the files of the pass. Of what cgo made of a file it takes the file itself, and it leaves out what cgo
// added.
func sourcesOf(pass *analysis.Pass) ([]source, error) {
	var files []source
	for _, tree := range pass.Files {
		name, err := filepath.Abs(pass.Fset.File(tree.Package).Name())
		if err != nil {
			return nil, err
		}
		own := strings.HasSuffix(name, ".go") && !strings.HasSuffix(name, ".cgo1.go")
		if !own {
			// A line directive at its head says of which file it was made.
			if name, err = filepath.Abs(pass.Fset.Position(tree.Package).Filename); err != nil {
				return nil, err
			}
		}
		if !strings.HasPrefix(filepath.Base(name), "_cgo_") {
			files = append(files, source{name, tree, own})
		}
	}
	return files, nil
}

// posn is a place as the program tells it.
var posn = regexp.MustCompile(`^(.+):(\d+):(\d+)$`)

// place finds the position of FILE:LINE:COLUMN, and the file's tree.
func place(pass *analysis.Pass, files []source, text string) (*ast.File, token.Pos, error) {
	parts := posn.FindStringSubmatch(text)
	if parts == nil {
		return nil, token.NoPos, fmt.Errorf("no place: %s", text)
	}
	line, _ := strconv.Atoi(parts[2])
	column, _ := strconv.Atoi(parts[3])
	for _, file := range files {
		if file.name == parts[1] && file.own {
			return file.tree, at(pass.Fset.File(file.tree.Package), line, column), nil
		}
		if file.name == parts[1] {
			return file.tree, nearest(pass.Fset, file.tree, line, column), nil
		}
	}
	return nil, token.NoPos, fmt.Errorf("a place in no file of the package: %s", text)
}

// at gives the position of a line and column. An editor may hold another text than the file that the program read, so
// they may lie behind the end: then it is the end.
func at(file *token.File, line, column int) token.Pos {
	last := token.Pos(file.Base() + file.Size())
	if line > file.LineCount() {
		return last
	}
	pos := file.LineStart(line) + token.Pos(column-1)
	if pos > last {
		return last
	}
	return pos
}

// nearest finds a place in a text that cgo made, by its line directives: a node there, else one of that line.
func nearest(fset *token.FileSet, tree *ast.File, line, column int) token.Pos {
	found, exact := tree.Package, false
	ast.Inspect(tree, func(node ast.Node) bool {
		if node == nil || exact {
			return false
		}
		here := fset.Position(node.Pos())
		if here.Line == line && (fset.Position(found).Line != line || here.Column == column) {
			found, exact = node.Pos(), here.Column == column
		}
		return true
	})
	return found
}

// end gives the end of what is named: of a name that the message has a word for, of an import path, or of the word
// `return`. Where something else stands at the position, there is none.
func end(tree *ast.File, pos token.Pos, message string) token.Pos {
	named := func(name string) bool {
		for _, word := range strings.Fields(message) {
			if word == name {
				return true
			}
		}
		return false
	}
	found := token.NoPos
	ast.Inspect(tree, func(node ast.Node) bool {
		if node == nil || found != token.NoPos || pos < node.Pos() || node.End() <= pos {
			return false
		}
		switch node := node.(type) {
		case *ast.Ident:
			if node.Pos() == pos && named(node.Name) {
				found = node.End()
			}
		case *ast.BasicLit:
			if node.Pos() == pos {
				found = node.End()
			}
		case *ast.ReturnStmt:
			if node.Pos() == pos {
				found = pos + token.Pos(len("return"))
			}
		}
		return true
	})
	return found
}

// editsOf gives the edits of a fix, if each of them lies in a file that the pass has as it is.
func editsOf(pass *analysis.Pass, files []source, suggested fix) ([]analysis.TextEdit, bool) {
	var edits []analysis.TextEdit
	for _, edit := range suggested.Edits {
		file := fileOf(pass, files, edit.Filename)
		if file == nil || edit.Start > edit.End || edit.End > file.Size() {
			return nil, false
		}
		edits = append(edits, analysis.TextEdit{Pos: file.Pos(edit.Start), End: file.Pos(edit.End), NewText: []byte(edit.New)})
	}
	return edits, true
}

// fileOf gives the file of this name, if the pass has it as it is.
func fileOf(pass *analysis.Pass, files []source, name string) *token.File {
	for _, file := range files {
		if file.name == name && file.own {
			return pass.Fset.File(file.tree.Package)
		}
	}
	return nil
}

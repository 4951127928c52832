package singleflight_test

import (
	"bytes"
	"flag"
	"go/ast"
	"go/doc"
	"go/parser"
	"go/printer"
	"go/token"
	"os"
	"path/filepath"
	"sort"
	"strings"
	"testing"
)

var update = flag.Bool("update", false, "write each api.txt anew")

// The package, and those of modules of their own, which are not there if a module proxy has served
// this one alone.
var folders = []string{".", "prometheus", "otel"}

func parse(t *testing.T, folder string, tests bool) (fset *token.FileSet, files []*ast.File) {
	t.Helper()
	names, err := filepath.Glob(filepath.Join(folder, "*.go"))
	if err != nil {
		t.Fatal(err)
	}
	fset = token.NewFileSet()
	for _, name := range names {
		if strings.HasSuffix(name, "_test.go") != tests {
			continue
		}
		mode := parser.Mode(0)
		if tests {
			mode = parser.ParseComments
		}
		file, err := parser.ParseFile(fset, name, nil, mode)
		if err != nil {
			t.Fatal(err)
		}
		files = append(files, file)
	}
	return fset, files
}

// The type's name, behind stars, packages and type arguments.
func nameOf(of ast.Expr) string {
	switch it := of.(type) {
	case *ast.StarExpr:
		return nameOf(it.X)
	case *ast.IndexExpr:
		return nameOf(it.X)
	case *ast.IndexListExpr:
		return nameOf(it.X)
	case *ast.SelectorExpr:
		return it.Sel.Name
	case *ast.Ident:
		return it.Name
	}
	return ""
}

func exported(names []*ast.Ident) (kept []*ast.Ident) {
	for _, name := range names {
		if name.IsExported() {
			kept = append(kept, name)
		}
	}
	return kept
}

// What is exported of a declaration, one for each spec; with its names.
func exports(decl ast.Decl) (parts []ast.Node, names []string) {
	switch d := decl.(type) {
	case *ast.FuncDecl:
		isMethod := d.Recv != nil
		if d.Name.IsExported() && (!isMethod || ast.IsExported(nameOf(d.Recv.List[0].Type))) {
			d.Body = nil
			return []ast.Node{d}, []string{d.Name.Name}
		}
	case *ast.GenDecl:
		for _, spec := range d.Specs {
			switch s := spec.(type) {
			case *ast.TypeSpec:
				if !s.Name.IsExported() {
					continue
				}
				names = append(names, s.Name.Name)
				if fields, ok := s.Type.(*ast.StructType); ok {
					fields.Fields.List = exportedFields(fields.Fields.List)
				}
			case *ast.ValueSpec:
				s.Names = exported(s.Names)
				for _, name := range s.Names {
					names = append(names, name.Name)
				}
				if len(s.Names) == 0 {
					continue
				}
				if d.Tok == token.VAR {
					s.Values = nil
				}
			default:
				continue
			}
			parts = append(parts, &ast.GenDecl{Tok: d.Tok, Specs: []ast.Spec{spec}})
		}
	}
	return parts, names
}

func exportedFields(fields []*ast.Field) (kept []*ast.Field) {
	for _, field := range fields {
		if field.Names == nil && ast.IsExported(nameOf(field.Type)) {
			kept = append(kept, field)
		} else if field.Names = exported(field.Names); field.Names != nil {
			kept = append(kept, field)
		}
	}
	return kept
}

// What the exported API of the package in the folder is, one declaration after the other.
func apiOf(t *testing.T, folder string) string {
	fset, files := parse(t, folder, false)
	var all []string
	for _, file := range files {
		for _, decl := range file.Decls {
			parts, _ := exports(decl)
			for _, part := range parts {
				var text bytes.Buffer
				if err := printer.Fprint(&text, fset, part); err != nil {
					t.Fatal(err)
				}
				// Empty lines stand where something was left out.
				lines := strings.FieldsFunc(text.String(), func(r rune) bool { return r == '\n' })
				all = append(all, strings.Join(lines, "\n")+"\n")
			}
		}
	}
	sort.Strings(all)
	return strings.Join(all, "")
}

// The exported API is what api.txt lists. A change is meant: go test -run TestAPI . -update
func TestAPI(t *testing.T) {
	for _, folder := range folders {
		got := apiOf(t, folder)
		name := filepath.Join(folder, "api.txt")
		if *update && got != "" {
			if err := os.WriteFile(name, []byte(got), 0o644); err != nil {
				t.Fatal(err)
			}
		}
		want, err := os.ReadFile(name)
		if got != "" && (err != nil || string(want) != got) {
			t.Errorf("%v: the API is not that of %s, but\n%s", err, name, got)
		}
	}
}

// Each exported name stands in an example.
func TestExamples(t *testing.T) {
	for _, folder := range folders {
		fset, tests := parse(t, folder, true)
		// Those of prometheus.Collector are called by a registry.
		named := map[string]bool{"Describe": true, "Collect": true}
		for _, example := range doc.Examples(tests...) {
			for _, part := range strings.Split(example.Name, "_") {
				named[part] = true
			}
			ast.Inspect(example.Code, func(node ast.Node) bool {
				switch it := node.(type) {
				case *ast.SelectorExpr:
					named[it.Sel.Name] = true
				case *ast.KeyValueExpr:
					if key, ok := it.Key.(*ast.Ident); ok {
						named[key.Name] = true
					}
				}
				return true
			})
		}
		_, files := parse(t, folder, false)
		for _, file := range files {
			for _, decl := range file.Decls {
				_, names := exports(decl)
				for _, name := range names {
					if !named[name] {
						t.Error("no example has", fset.Position(decl.Pos()).Filename, name)
					}
				}
			}
		}
	}
}

package main
import "context"
func f(p context.Context, q T,) {;; a, b := context.WithCancel(p,); defer b()
	if a { return } else { g(a, q,); {} }
}
func g() { return }
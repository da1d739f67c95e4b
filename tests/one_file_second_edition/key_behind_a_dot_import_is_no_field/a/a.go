package a

import (
	"context"
	. "fmt"
)

func show() { Println() }

type T struct{ Stop, stop func() }

func (t *T) Close() { t.Stop(); t.stop() }

func (t *T) set(p context.Context) {
	_, c := context.WithCancel(p)
	t.Stop = c
}

func small(p context.Context) *T {
	_, c := context.WithCancel(p)
	t := &T{stop: c}
	return t
}

func capital(p context.Context) *T {
	_, c := context.WithCancel(p)
	t := &T{Stop: c}
	return t
}

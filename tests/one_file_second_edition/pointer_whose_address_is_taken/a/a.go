package a

import "context"

type T struct{ stop func(); n int }

func (t *T) Close() { t.stop() }

func reg(x any) {}

func pointedTo(p context.Context) *T {
	_, c := context.WithCancel(p)
	t := &T{stop: c}
	q := &t
	*q = &T{}
	return t
}

func assigned(p context.Context) {
	_, c := context.WithCancel(p)
	t := &T{}
	t.stop = c
	reg(&t)
}

func given(p context.Context) {
	_, c := context.WithCancel(p)
	t := &T{stop: c}
	reg(&t)
}

func value(p context.Context) *T {
	_, c := context.WithCancel(p)
	t := T{stop: c}
	q := &t
	q.n = 1
	return &t
}

package a

import "context"

type T struct{ stop func(); n int }

func (t *T) Close() { t.stop() }

type U struct{ t int }

type V []any

func reg(f func()) {}

func use(x any) {}

func key(p context.Context) {
	_, c := context.WithCancel(p)
	t := &T{stop: c}
	t.n = 1
	reg(func() { use(U{t: 1}) })
}

func value(p context.Context) {
	_, c := context.WithCancel(p)
	t := &T{stop: c}
	reg(func() { use(V{t}) })
}

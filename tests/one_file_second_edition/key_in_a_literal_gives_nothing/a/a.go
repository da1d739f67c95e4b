package a

import "context"

type T struct{ stop func() }

func (t *T) Close() { t.stop() }

type P struct{ x int }

func f(p context.Context) {
	_, cancel := context.WithCancel(p)
	x := &T{stop: cancel}
	use(func() { use(P{x: 1}) })
}

func use(v any) {}

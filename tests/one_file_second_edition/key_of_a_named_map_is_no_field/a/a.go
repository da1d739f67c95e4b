package a

import "context"

type T struct{ stop func() }

func (t *T) Close() { t.stop() }

type M map[int]func()

func (m M) stop() {}

const stop = 0

func f(p context.Context) {
	_, cancel := context.WithCancel(p)
	m := M{stop: cancel}
	m.stop()
}

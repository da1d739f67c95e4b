package a

import "context"

type T struct{ stop func() }

func (t *T) Close() { t.stop() }

func once(p context.Context) *T {
	_, c := context.WithCancel(p)
	t := &T{}
	t.stop = c
	return t
}

func twice(p context.Context) *T {
	_, c := context.WithCancel(p)
	t := &T{}
	t.stop = c
	(t).stop = nil
	return t
}

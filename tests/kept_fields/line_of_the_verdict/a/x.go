package a

import "context"

type T struct{ stop func() }

func New(p context.Context) *T {
	_, cancel := context.WithCancel(p)
	t := &T{stop: cancel}
	return t
}

func (t *T) Close() { t.stop() }

package a

import "context"

type T struct{ stop func() }

func (t *T) Close() { t.stop() }

func f(p context.Context) {
	_, cancel := context.WithCancel(p)
	t := &T{stop: cancel}
	(println)(t)
}

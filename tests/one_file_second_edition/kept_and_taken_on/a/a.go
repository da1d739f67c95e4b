package a

import "context"

func f(p context.Context, b bool) {
	_, cancel := context.WithCancel(p)
	t := &T{stop: cancel}
	_ = t
	go func() { cancel() }()
}

type T struct{ stop func() }

func (t *T) Close() { t.stop() }

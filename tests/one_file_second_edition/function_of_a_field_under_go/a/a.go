package a

import "context"

type T struct{ stop, run func() }

func (t *T) Close() { t.stop() }

func f(p context.Context, g func()) {
	_, cancel := context.WithCancel(p)
	t := &T{stop: cancel, run: g}
	go t.run()
}

package a

import "context"

type T struct{ stop, run func() }

func (t *T) Close() { t.stop() }

func (t *T) set(run func()) { t.run = run }

func field(p context.Context) {
	_, c := context.WithCancel(p)
	t := &T{stop: c}
	go t.run()
}

func method(p context.Context) {
	_, c := context.WithCancel(p)
	t := &T{stop: c}
	go t.Close()
}

package a

import "context"

type T struct{ stop func() }

func (t *T) Close() { t.stop() }

func (t *T) run() {}

type U struct{ run int }

var u = U{run: 1}

func f(p context.Context) {
	_, cancel := context.WithCancel(p)
	t := &T{stop: cancel}
	go t.run()
}

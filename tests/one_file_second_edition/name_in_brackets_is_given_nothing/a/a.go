package a

import "context"

type T struct{ stop func() }

func (t *T) Close() { t.stop() }

func reg(x any) {}

func given(p context.Context) {
	_, c := context.WithCancel(p)
	t := &T{stop: c}
	reg(t)
}

func inBrackets(p context.Context) {
	_, c := context.WithCancel(p)
	t := &T{stop: c}
	(reg)(t)
}

package a

import "context"

const stop = 0

type S struct{ stop func() }

func (s *S) Close() { s.stop() }

func (s *S) set(p context.Context) {
	_, c := context.WithCancel(p)
	s.stop = c
}

type T map[int]func()

func f(p context.Context) T {
	_, c := context.WithCancel(p)
	t := T{stop: c}
	return t
}

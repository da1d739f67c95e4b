package a

import "context"

func f(p context.Context, b bool) {
	_, cancel := context.WithCancel(p)
	go func() {
		defer cancel()
		panic("x")
	}()
}

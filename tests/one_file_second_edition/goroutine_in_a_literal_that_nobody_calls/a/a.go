package a

import "context"

func f(p context.Context, b bool) {
	_, cancel := context.WithCancel(p)
	h := func() {
		go func() { cancel() }()
	}
	_ = h
}

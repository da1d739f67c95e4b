package a

import "context"

func f(p context.Context) {
	_, c := context.WithCancel(p)
}

func g(p context.Context) {
	_, c := context.WithCancel(p)
	if p { return }; return
}

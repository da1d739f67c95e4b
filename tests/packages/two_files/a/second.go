package a

import "context"

func f(p context.Context) {
	_, cancel := context.WithCancel(p)
	finish(cancel)
}

func g(p context.Context) {
	_, cancel := context.WithCancel(p)
	forget(cancel)
}

func forget(_ context.CancelFunc) {
}

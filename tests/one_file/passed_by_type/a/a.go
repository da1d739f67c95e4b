package a

import "context"

func f(p context.Context) {
	_, c := context.WithCancelCause(p)
	_, d := context.WithCancel(p)
	done(c)
	stop(d)
}

func g(p context.Context) {
	_, c := context.WithCancelCause(p)
	_, d := context.WithCancel(p)
	done(d)
	stop(c)
}

func done(c context.CancelCauseFunc) {
	defer c(nil)
}

func stop(c context.CancelFunc) {
	defer c()
}

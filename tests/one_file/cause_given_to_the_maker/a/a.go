package a

import "context"

func f(p context.Context, d int, e error) {
	_, c := context.WithTimeoutCause(p, d, e)
	defer c()
}

func g(p context.Context, d int, e error) {
	_, c := context.WithDeadlineCause(p, d, e)
	defer c(e)
}

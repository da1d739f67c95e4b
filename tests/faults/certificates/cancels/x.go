package a

import "context"

func f(p context.Context) {
	_, cancel := context.WithCancelCause(p)
	cancel(nil)
}

package a

import "context"

func f(p context.Context) {
	_, _ = context.WithCancel(p)
}

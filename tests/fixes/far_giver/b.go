package a

import "context"

func start(p context.Context) (context.Context, context.CancelFunc) {
	return context.WithCancel(p)
}

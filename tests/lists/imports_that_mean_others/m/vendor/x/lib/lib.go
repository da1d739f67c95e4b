package lib

import "context"

func New(p context.Context) (context.Context, context.CancelFunc) {
	return context.WithCancel(p)
}

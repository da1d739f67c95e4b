package b

import "context"

func With(p context.Context) (context.Context, context.CancelFunc) {
	return context.WithCancel(p)
}

package a

import "context"

func Begin(p context.Context) context.Context {
	ctx, cancel := context.WithCancel(p)
	if ctx.Err() == nil {
		return ctx
	}
	cancel()
	return p
}

func End(stop context.CancelFunc) {
	stop()
}

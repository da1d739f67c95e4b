package a

import "context"

func fetch(parent context.Context, cached bool) {
	_, cancel := context.WithCancel(parent)
	if cached {
		return
	}
	cancel()
}

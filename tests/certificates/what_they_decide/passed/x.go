package a

import "context"

func fetch(parent context.Context) {
	_, cancel := context.WithCancel(parent)
	finish(cancel)
}

func finish(cancel context.CancelFunc) {
	cancel()
}

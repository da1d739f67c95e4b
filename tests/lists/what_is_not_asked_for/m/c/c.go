package c

import "context"

func Lost(p context.Context) {
	_, cancel := context.WithCancel(p)
	_, cancel = context.WithCancel(p)
	cancel()
}

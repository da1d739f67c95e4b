package a

import "context"

func f(p context.Context) {
	_, cancel := context.WithCancel(p)
	_, cancel = context.WithCancel(p)
	cancel()
}

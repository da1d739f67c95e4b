package a

import "context"

func f(p context.Context) {
	_, cancel := context.WithCancel(p)
	_ = "é"; _, cancel = context.WithCancel(p)
	cancel()
}

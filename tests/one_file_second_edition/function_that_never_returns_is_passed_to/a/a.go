package a

import "context"

func f(p context.Context, b bool) {
	_, cancel := context.WithCancel(p)
	fin(cancel)
}

func fin(c context.CancelFunc) {
	for {
	}
}

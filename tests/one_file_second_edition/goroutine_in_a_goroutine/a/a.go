package a

import "context"

func f(p context.Context, b bool) {
	_, cancel := context.WithCancel(p)
	go func() {
		go func() {
			cancel()
		}()
	}()
}

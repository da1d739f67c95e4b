package a

import "context"

func f(p context.Context) {
	_, cancel := context.WithCancel(p)
	go func() {
		defer cancel()
		for {
			work()
		}
	}()
}

func work() {}

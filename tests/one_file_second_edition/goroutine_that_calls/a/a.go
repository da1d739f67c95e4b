package a

import "context"

func f(p context.Context, done chan int) {
	_, cancel := context.WithCancel(p)
	go func() {
		if <-done == 0 {
			cancel()
			return
		}
		defer cancel()
		work()
	}()
}

func work() {}

package a

import "context"

func f(p context.Context) {
	_, cancel := context.WithCancel(p)
	go func() {
		if more() {
			return
		}
		cancel()
	}()
	//ctxvet:accept LC05 the goroutine ends with the process
	return
}

func g(p context.Context) {
	_, cancel := context.WithCancel(p)
	defer func() {
		cancel()
	}()
	//ctxvet:accept LC05 it is deferred now
	return
}

package a

import "context"

func f(p context.Context) {
	_, cancel := context.WithCancel(p)
	go keep(cancel)
}

func g(p context.Context) {
	_, cancel := context.WithCancel(p)
	run := func(c context.CancelFunc) { c() }
	go run(cancel)
}

func keep(c context.CancelFunc) {}

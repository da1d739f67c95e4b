package a

import "context"

func f(p context.Context) {
	_, c := context.WithCancel(p)
}

func ff(p context.Context) {
	_, c := context.WithCancel(p)
}

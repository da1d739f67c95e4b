package a

import "context"

func f(p context.Context) {
	_, b := context.WithCancel(p)
	_, a := context.WithCancel(p)
}

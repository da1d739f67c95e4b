package a

import "context"

func f(p context.Context) {
	_, c := context.WithCancel(p)
}

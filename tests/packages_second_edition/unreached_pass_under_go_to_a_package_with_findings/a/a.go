package a

import (
	"b"
	"context"
)

func f(p context.Context) {
	_, cancel := context.WithCancel(p)
	defer cancel()
	return
	go b.Fin(cancel)
}

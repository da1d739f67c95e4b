package a

import (
	"b"
	"context"
)

func f(p context.Context) {
	_, cancel := context.WithCancel(p)
	b.Fin(cancel)
}

package a

import (
	"b"
	"context"
)

func f(c context.CancelFunc) {
	go b.Fin(c)
}

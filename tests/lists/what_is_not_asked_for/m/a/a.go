package a

import (
	"context"
	"x/b"
)

func F(p context.Context, ok bool) {
	_, stop := b.With(p)
	if ok {
		stop()
	}
}

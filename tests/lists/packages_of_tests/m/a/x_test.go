package a_test

import (
	"context"
	"x/a"
)

func F(p context.Context, ok bool) {
	_, stop := a.With(p)
	if ok {
		stop()
	}
}

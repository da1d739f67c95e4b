package a

import (
	"context"

	"x/lib"
)

func F(p context.Context) {
	_, stop := lib.New(p)
	if p == nil {
		stop()
	}
}

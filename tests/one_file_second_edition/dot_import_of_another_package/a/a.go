package a

import (
	"context"
	. "strings"
)

func f(p context.Context) {
	ctx, cancel := context.WithCancel(p)
	defer cancel()
	use(ctx, ToUpper("a"))
}

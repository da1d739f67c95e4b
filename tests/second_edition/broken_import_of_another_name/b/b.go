package b

import (
	"context"
	"lib/pool"
	"lib/work"
)

func f(p context.Context) {
	_, c := work.New(p)
	use(c)
}

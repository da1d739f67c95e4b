package d

import (
	"a"
	"context"
)

func obtains(p context.Context) {
	_, c := a.New(p)
	use(c)
}

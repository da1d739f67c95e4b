package b

import (
	"a"
	"context"
)

func ends(p context.Context) {
	_, cancel := context.WithCancel(p)
	a.End(cancel)
}

func ends_too(p context.Context) {
	_, cancel := context.WithCancel(p)
	defer cancel()
	a.End(cancel)
}

package c

import (
	"a"
	"b"
	"context"
)

func f(p context.Context) {
	_, one := context.WithCancel(p)
	a.End(one)
	_, two := context.WithCancel(p)
	b.End(two)
}

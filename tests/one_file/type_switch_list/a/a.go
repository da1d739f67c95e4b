package a

import (
	"context"
	"golang.org/x/sync/errgroup"
	"unsafe"
)

func f(x any) {
	switch errgroup := x.(type) {
	case *errgroup.Group:
		use(errgroup)
	default:
		use(errgroup)
	}
}

func g(p context.Context, x any) {
	ctx, cancel := context.WithCancel(p)
	switch cancel := x.(type) {
	case [unsafe.Sizeof(cancel)]int:
		use(ctx, cancel)
	default:
		use(ctx, cancel)
	}
	cancel()
}

package a

import "context"

func f1(p context.Context) {
	ctx, cancel := context.WithCancel(p)
	defer cancel()
	use(ctx)
}

func f2(p context.Context) {
	ctx, cancel := context.WithCancel(p)
	defer cancel()
	use(ctx)
}

func f3(p context.Context) {
	ctx, cancel := context.WithCancel(p)
	defer cancel()
	use(ctx)
}

func f4(p context.Context) {
	ctx, cancel := context.WithCancel(p)
	defer cancel()
	use(ctx)
}

func f5(p context.Context) {
	ctx, cancel := context.WithCancel(p)
	defer cancel()
	use(ctx)
}

func f6(p context.Context) {
	ctx, cancel := context.WithCancel(p)
	defer cancel()
	use(ctx)
}

func f7(p context.Context) {
	ctx, cancel := context.WithCancel(p)
	defer cancel()
	use(ctx)
}

func f8(p context.Context) {
	ctx, cancel := context.WithCancel(p)
	defer cancel()
	use(ctx)
}

func g1(c context.CancelFunc) {
	defer c()
}

func g2(c context.CancelFunc) {
	defer c()
}

func g3(c context.CancelFunc) {
	defer c()
}

func g4(c context.CancelFunc) {
	defer c()
}

func g5(c context.CancelFunc) {
	defer c()
}

func g6(c context.CancelFunc) {
	defer c()
}

func g7(c context.CancelFunc) {
	defer c()
}

func g8(c context.CancelFunc) {
	defer c()
}

package b

import "context"

func f1(p context.Context) {
	ctx, cancel := context.WithCancel(p)
	defer cancel()
	use(ctx)
}

func f2(p context.Context) {
	ctx, cancel := context.WithCancel(p)
	defer cancel()
	use(ctx)
}

func f3(p context.Context) {
	ctx, cancel := context.WithCancel(p)
	defer cancel()
	use(ctx)
}

func f4(p context.Context) {
	ctx, cancel := context.WithCancel(p)
	defer cancel()
	use(ctx)
}

func f5(p context.Context) {
	ctx, cancel := context.WithCancel(p)
	defer cancel()
	use(ctx)
}

func f6(p context.Context) {
	ctx, cancel := context.WithCancel(p)
	defer cancel()
	use(ctx)
}

func f7(p context.Context) {
	ctx, cancel := context.WithCancel(p)
	defer cancel()
	use(ctx)
}

func f8(p context.Context) {
	ctx, cancel := context.WithCancel(p)
	defer cancel()
	use(ctx)
}

func f9(p context.Context) {
	ctx, cancel := context.WithCancel(p)
	defer cancel()
	use(ctx)
}

func f10(p context.Context) {
	ctx, cancel := context.WithCancel(p)
	defer cancel()
	use(ctx)
}

func f11(p context.Context) {
	ctx, cancel := context.WithCancel(p)
	defer cancel()
	use(ctx)
}

func f12(p context.Context) {
	ctx, cancel := context.WithCancel(p)
	defer cancel()
	use(ctx)
}

func f13(p context.Context) {
	ctx, cancel := context.WithCancel(p)
	defer cancel()
	use(ctx)
}

func f14(p context.Context) {
	ctx, cancel := context.WithCancel(p)
	defer cancel()
	use(ctx)
}

func f15(p context.Context) {
	ctx, cancel := context.WithCancel(p)
	defer cancel()
	use(ctx)
}

func f16(p context.Context) {
	ctx, cancel := context.WithCancel(p)
	defer cancel()
	use(ctx)
}

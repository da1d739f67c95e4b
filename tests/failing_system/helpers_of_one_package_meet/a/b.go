package a

import "context"

func f101(p context.Context) {
	ctx, cancel := context.WithCancel(p)
	defer cancel()
	use(ctx)
}

func f102(p context.Context) {
	ctx, cancel := context.WithCancel(p)
	defer cancel()
	use(ctx)
}

func f103(p context.Context) {
	ctx, cancel := context.WithCancel(p)
	defer cancel()
	use(ctx)
}

func f104(p context.Context) {
	ctx, cancel := context.WithCancel(p)
	defer cancel()
	use(ctx)
}

func f105(p context.Context) {
	ctx, cancel := context.WithCancel(p)
	defer cancel()
	use(ctx)
}

func f106(p context.Context) {
	ctx, cancel := context.WithCancel(p)
	defer cancel()
	use(ctx)
}

func f107(p context.Context) {
	ctx, cancel := context.WithCancel(p)
	defer cancel()
	use(ctx)
}

func f108(p context.Context) {
	ctx, cancel := context.WithCancel(p)
	defer cancel()
	use(ctx)
}

func g101(c context.CancelFunc) {
	defer c()
}

func g102(c context.CancelFunc) {
	defer c()
}

func g103(c context.CancelFunc) {
	defer c()
}

func g104(c context.CancelFunc) {
	defer c()
}

func g105(c context.CancelFunc) {
	defer c()
}

func g106(c context.CancelFunc) {
	defer c()
}

func g107(c context.CancelFunc) {
	defer c()
}

func g108(c context.CancelFunc) {
	defer c()
}

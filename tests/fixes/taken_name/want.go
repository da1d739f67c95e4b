// Another name is free where the first one is taken.
package a

import "context"

func f(p context.Context) {
	ctx, cancel := context.WithCancel(p)
	defer cancel()
	use(ctx)
	other, cancelContext := context.WithTimeout(p, 5)
	defer cancelContext()
	use(other)
}

func use(ctx context.Context) {}

// Another name is free where the first one is taken.
package a

import "context"

func f(p context.Context) {
	ctx, cancel := context.WithCancel(p)
	defer cancel()
	use(ctx)
	other, _ := context.WithTimeout(p, 5)
	use(other)
}

func use(ctx context.Context) {}

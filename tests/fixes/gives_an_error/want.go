// What the context is given to gives an error alone.
package a

import "context"

func f(p context.Context) error {
	ctx, cancel := context.WithCancel(p)
	defer cancel()
	_ = cancel
	if err := try(ctx); err != nil {
		return err
	}
	return try(ctx)
}

func try(ctx context.Context) error { return nil }

func use(ctx context.Context) {}

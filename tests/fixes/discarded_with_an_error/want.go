// The line stands behind the test of the error.
package a

import "context"

func f(p context.Context) error {
	ctx, cancel, err := open(p, nil)
	if err != nil {
		return err
	}
	defer cancel()
	use(ctx)
	return nil
}

func open(p context.Context, fail error) (context.Context, context.CancelFunc, error) {
	if fail != nil {
		return nil, nil, fail
	}
	ctx, cancel := context.WithCancel(p)
	return ctx, cancel, nil
}

func use(ctx context.Context) {}

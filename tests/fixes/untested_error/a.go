// Nothing tests the error, without which there is a function to call.
package a

import "context"

func f(p context.Context) {
	ctx, stop, err := open(p, nil)
	_, _ = stop, err
	use(ctx)
}

func open(p context.Context, fail error) (context.Context, context.CancelFunc, error) {
	if fail != nil {
		return nil, nil, fail
	}
	ctx, cancel := context.WithCancel(p)
	return ctx, cancel, nil
}

func use(ctx context.Context) {}

package a

import "context"

func Open(p context.Context, name string) (context.Context, context.CancelFunc, error) {
	if name == "" {
		return nil, nil, missing()
	}
	ctx, cancel := context.WithCancel(p)
	return ctx, cancel, nil
}

func f(p context.Context) error {
	ctx, cancel, err := Open(p, "a")
	log(err)
	if err != nil {
		return err
	}
	defer cancel()
	return use(ctx)
}

func g(p context.Context) error {
	ctx, cancel, err := Open(p, "a")
	if err != nil || more() {
		return err
	}
	defer cancel()
	return use(ctx)
}

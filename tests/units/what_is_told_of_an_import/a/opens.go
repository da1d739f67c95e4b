package a

import (
	"b"
	"context"
)

func F(p context.Context) error {
	ctx, cancel, err := b.Open(p)
	if err != nil {
		return err
	}
	defer cancel()
	return ctx.Err()
}

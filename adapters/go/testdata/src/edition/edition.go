package edition

import "context"

func early(parent context.Context) error {
	ctx, end := context.WithCancel(parent)
	if parent.Err() != nil {
		return parent.Err()
	}
	end()
	return ctx.Err()
}

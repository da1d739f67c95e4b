package relies // want package:`"yes":false`

import (
	"context"

	"work" // want "LC13 work "
)

func lends(parent context.Context) {
	ctx, end := context.WithCancel(parent)
	defer end()
	work.Lend(ctx, end)
}

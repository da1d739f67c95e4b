package lease

import (
	"context"
	"testing"
)

func TestTake(t *testing.T) {
	ctx, end := Take(context.Background())
	if ctx.Err() != nil {
		return
	}
	Release(end)
}

package tested

import (
	"context"
	"testing"
)

func TestName(t *testing.T) {
	ctx, end := context.WithCancel(context.Background())
	if Name() == "" {
		return // want "LC05 end "
	}
	end()
	<-ctx.Done()
}

package group // want package:`"yes":false`

import (
	"context"
	"errors"

	"golang.org/x/sync/errgroup"
)

var errEmpty = errors.New("empty")

func early(parent context.Context, keys []string) error {
	var all errgroup.Group
	for _, key := range keys {
		if key == "" {
			return errEmpty // want "LC07 all "
		}
		all.Go(func() error { return parent.Err() })
	}
	return all.Wait()
}

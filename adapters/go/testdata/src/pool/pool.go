package pool // want package:`"yes":true`

import (
	"context"
	"time"
)

// Lease hands out a cancel function: whoever calls it has to see to the call.
func Lease(parent context.Context) (context.Context, context.CancelFunc) {
	return context.WithTimeout(parent, time.Minute)
}

// End calls what it is given.
func End(cancel context.CancelFunc) {
	cancel()
}

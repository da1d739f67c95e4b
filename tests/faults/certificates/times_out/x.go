package a

import c "context"

func f(p c.Context) {
	_, cancel := c.WithTimeoutCause(p, 1, nil)
	cancel()
}

package a

import "context"

func f(p context.Context) {
	_, cancel := context.WithCancel(p)
again:
	if more() {
		goto again
	}
	use()
	if more() {
		return
	}
	cancel()
}

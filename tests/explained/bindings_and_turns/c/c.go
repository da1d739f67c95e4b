package c

import "context"

func f(p context.Context) {
	_, cancel := context.WithCancel(p)
	use(cancel)
}

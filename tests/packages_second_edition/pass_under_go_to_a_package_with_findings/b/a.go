package b

import "context"

func Fin(c context.CancelFunc) {
	c()
}

func Leak(p context.Context) {
	_, cancel := context.WithCancel(p)
	use(cancel)
}

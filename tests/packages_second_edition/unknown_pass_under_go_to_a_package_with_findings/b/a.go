package b

import "context"

func Fin(c context.CancelFunc) {
	use(c)
}

func Leak(p context.Context) {
	_, cancel := context.WithCancel(p)
	use(cancel)
}

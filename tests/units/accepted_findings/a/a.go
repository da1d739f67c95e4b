package a

import "context"

func End(c context.CancelFunc) { c() }

func f(p context.Context) {
	_, cancel := context.WithCancel(p)
	use(cancel)
} //ctxvet:accept LC05 known

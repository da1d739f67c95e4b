package b

import "context"

func End(c context.CancelFunc) {
	c() //ctxvet:accept LC05 not needed
}

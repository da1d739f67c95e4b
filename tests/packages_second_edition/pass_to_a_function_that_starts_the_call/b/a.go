package b

import "context"

func Fin(c context.CancelFunc) {
	go func() { c() }()
}

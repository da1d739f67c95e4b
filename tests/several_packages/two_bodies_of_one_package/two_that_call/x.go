package a

import "context"

func f(c context.CancelFunc) {
	c()
}

func ff(c context.CancelFunc) {
	c()
}

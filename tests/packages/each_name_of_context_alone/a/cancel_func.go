package a

import "context"

func a7(stop context.CancelFunc) {
	use(stop)
}

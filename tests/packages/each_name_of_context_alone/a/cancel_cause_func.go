package a

import "context"

func a8(stop context.CancelCauseFunc) {
	use(stop)
}

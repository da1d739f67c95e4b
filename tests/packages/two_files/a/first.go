package a

import "context"

func finish(stop context.CancelFunc) {
	stop()
}

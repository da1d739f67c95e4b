package a

import "context"

func f(context int) {
	context.WithCancelCause()
}

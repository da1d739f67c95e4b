package a

import "context"

func f(p context.Context, b bool) {
	for b {
	}
}

package a

import (
	"context"
	"crypto/subtle"
)

func f(p context.Context) {
	_, cancel := context.WithCancel(p)
	subtle.WithDataIndependentTiming(cancel)
}

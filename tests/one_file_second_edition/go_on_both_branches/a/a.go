package a

import "context"

func f(p context.Context, b bool) {
	_, cancel := context.WithCancel(p)
	if b {
		go func() { cancel() }()
	} else {
		go cancel()
	}
}

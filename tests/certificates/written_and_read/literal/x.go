package a

import "context"

func fetch(parent context.Context) {
	_, cancel := context.WithCancel(parent)
	defer func() {
		cancel()
	}()
}

package n

import "golang.org/x/net/context"

func F(p context.Context) {
	_, cancel := context.WithCancel(p)
	if p == nil {
		cancel()
	}
}

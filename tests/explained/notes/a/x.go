package a

import "context"

func f(p context.Context, b bool) error {
	_, cancel := context.WithCancel(p)
	if b {
		return nil
	}
	cancel()
	return nil
}

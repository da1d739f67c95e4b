package b

import "context"

type T struct{ stop func() }

func New(p context.Context, b bool) *T {
	_, cancel := context.WithCancel(p)
	t := &T{stop: cancel}
	if b {
		return nil
	}
	return t
}

func (t *T) Close() { t.stop() }

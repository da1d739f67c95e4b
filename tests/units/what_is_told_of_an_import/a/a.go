package a

import (
	"b"
	"context"
)

func F(p context.Context) {
	_, cancel := context.WithCancel(p)
	b.Close(cancel)
}

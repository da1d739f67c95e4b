package a

import (
	"context"
	"x/run/v2"
)

func f(p context.Context) {
	_, cancel := context.WithCancel(p)
	run.Close(cancel)
}

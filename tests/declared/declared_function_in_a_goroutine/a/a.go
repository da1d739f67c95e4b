package a

import (
	"context"
	"x/run"
)

func f(p context.Context) {
	_, cancel := context.WithCancel(p)
	go func() { run.Close(cancel) }()
}

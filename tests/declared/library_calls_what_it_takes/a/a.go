package a

import (
	"context"
	"runtime/trace"
	"testing"
)

func f(p context.Context) {
	_, cancel := context.WithCancel(p)
	trace.WithRegion(p, "x", cancel)
}

func g(p context.Context) {
	_, cancel := context.WithCancel(p)
	testing.AllocsPerRun(1, cancel)
}

func i(p context.Context) {
	_, cancel := context.WithCancel(p)
	trace.Log(p, "x", cancel)
}

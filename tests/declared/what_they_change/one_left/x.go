package a

import (
	"context"
	"os/signal"
)

func f(p context.Context) {
	stop := signal.NotifyContext(p)
	defer stop()
}

package a

import (
	"context"
	"os/signal"
)

func F(p context.Context) {
	_, c := signal.NotifyContext(p)
}

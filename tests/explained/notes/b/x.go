package b

import (
	"context"
	"x/other"
)

func f(p context.Context) {
	_, cancel := context.WithCancel(p)
	other.Do(cancel)
	cancel()
}

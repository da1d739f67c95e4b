package subtle

import "context"

func WithDataIndependentTiming(stop context.CancelFunc) {
}

package b

import "context"

func start() context.CancelFunc {
	_, cancel := context.WithCancel(context.Background())
	return cancel
}

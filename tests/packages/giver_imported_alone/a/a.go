package a

import "context"

func Start() context.CancelFunc {
	_, cancel := context.WithCancel(context.Background())
	return cancel
}

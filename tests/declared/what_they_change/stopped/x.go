package a

import "os/signal"

func f(done bool) {
	_, stop := signal.NotifyContext(root)
	if done {
		return
	}
	stop()
}

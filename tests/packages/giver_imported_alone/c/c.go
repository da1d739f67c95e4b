package c

import "x/a"

func f(done bool) {
	stop := a.Start()
	if done {
		return
	}
	stop()
}

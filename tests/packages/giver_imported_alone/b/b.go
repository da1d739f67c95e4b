package b

import "a"

func f(done bool) {
	stop := a.Start()
	if done {
		return
	}
	stop()
}

package a

func f(done bool) {
	stop := start()
	if done {
		return
	}
	stop()
}

package a

func f(stop Stop, done bool) {
	if done {
		use(stop)
		return
	}
	stop()
}

package a

func finish(stop func()) {
	stop()
}

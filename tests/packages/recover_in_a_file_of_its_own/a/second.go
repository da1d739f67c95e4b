package a

func g() {
	defer func() {
		recover()
	}()
	work()
}

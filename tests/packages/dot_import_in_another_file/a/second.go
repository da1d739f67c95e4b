package a

func g() {
	recover()
}

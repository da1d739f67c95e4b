package a

func f(recover func()) {
	recover()
}

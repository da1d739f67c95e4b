package a

func f(x T) {
	if x == (T{}) {
	}
}

package a

func f(x T) {
	x.(type)
}

package a

func f(x T) {
	select {
	case x += 1:
	}
}

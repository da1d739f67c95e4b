package a

func f(x T) {
	select {
	case y := x, 1:
	}
}

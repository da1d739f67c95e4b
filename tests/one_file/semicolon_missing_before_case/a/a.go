package a

func f(x T) {
	switch x {
	case x: f(x) case y:
	}
}

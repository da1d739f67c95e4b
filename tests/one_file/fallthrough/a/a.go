package a

func f(x T) {
	switch x {
	case x:
		fallthrough
	default:
	}
}

package a

func f() {
	goto x
	x y
}

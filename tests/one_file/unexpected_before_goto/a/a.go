package a

func f() {
	x y
	goto x
}

package a

func f() {
	goto x
}

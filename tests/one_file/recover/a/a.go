package a

func f() {
	defer func() {
		recover()
	}()
}

package bad

func f() {}
func f() {}

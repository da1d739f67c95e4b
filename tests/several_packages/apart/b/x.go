package b

func f() {}

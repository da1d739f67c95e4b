package a

var /*none*/v = func(/*=1 var*/p int) int { return /*1*/p + /*package*/w }

var w = /*package*/v(1)

func f(/*=2 var*/p int) {
	/*=3 var*/g := func(/*=4 var*/q int) (/*=5 var*/r int) {
		/*5*/r = /*2*/p + /*4*/q
		return /*universe*/g(1)
	}
	_ = /*3*/g
	/*=6 var*/s := S{/*universe*/name: /*2*/p, /*2*/p: 1, "k": /*3*/g}
	_ = /*6*/s./*none*/name + /*6*/s./*none*/p
	/*none*/L:
	for {
		break /*none*/L
	}
}

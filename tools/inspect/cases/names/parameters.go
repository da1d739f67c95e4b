package a

type /*none*/T int

func f(/*=1 var*/a, b /*package*/T, c ...func(/*none*/x /*package*/T)) (/*=2 var*/r /*universe*/int) {
	/*2*/r = /*1*/a
	{
		/*=3 var*/a := /*1*/a
		_ = /*3*/a
	}
	return /*1*/a
}

func (/*=4 var*/t /*package*/T) m(/*=5 var*/f func(f /*package*/T)) {
	/*5*/f(/*4*/t)
	/*function*/g()
	/*universe*/m()
}

func g()

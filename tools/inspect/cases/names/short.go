package a

func f(/*=1 var*/a int) (/*=2 var*/err error) {
	/*=3 var*/b, /*1*/a := 1, /*1*/a
	/*=4 var*/c, /*2*/err, /*3*/b := 1, nil, /*3*/b
	{
		/*=5 var*/d, /*=6 var*/a := /*1*/a, /*4*/c
		_, _ = /*5*/d, /*6*/a
		/*=7 var*/e, /*6*/a := 1, /*6*/a
		_ = /*7*/e
	}
	/*none*/_, /*=8 var*/e := /*1*/a, /*universe*/e
	return /*2*/err, /*8*/e
}

func twice(/*=9 var*/a int) {
	{
		/*=10 var*/b, /*none*/b := /*9*/a, 2
		/*10*/b()
	}
}

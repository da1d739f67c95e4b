package a

func f(/*=1 var*/x any, /*=2 var*/c chan int) {
	switch /*none*/x := /*1*/x.(type) {
	/*=3 var*/case int:
		_ = /*3*/x
		/*3*/x = 1
		{
			/*=5 var*/x := /*3*/x
			_ = /*5*/x
		}
	/*=4 var*/case string, bool:
		_ = /*4*/x
	}
	_ = /*1*/x
	select {
	case /*=6 var*/x := <-/*2*/c:
		_ = /*6*/x
	case /*=7 var*/y, /*=8 var*/ok := <-/*2*/c:
		_, _, _ = /*7*/y, /*8*/ok, /*1*/x
	case /*2*/c <- /*universe*/y:
		/*=9 var*/y := 1
		_ = /*9*/y
	default:
		_ = /*universe*/y
	}
}

package a

func f(/*=1 var*/x int) {
	if /*=2 var*/x := /*1*/x; /*2*/x > 0 {
		_ = /*2*/x
		/*=3 var*/x := /*2*/x
		_ = /*3*/x
	} else if /*=4 var*/y := /*2*/x; /*4*/y > 0 {
		_, _ = /*2*/x, /*4*/y
	} else {
		_ = /*4*/y
	}
	_, _ = /*1*/x, /*universe*/y
	for /*=5 var*/i := /*1*/x; /*5*/i < 3; /*5*/i++ {
		/*=6 var*/i := /*5*/i
		_ = /*6*/i
	}
	for /*=7 var*/k, /*=8 var*/v := range /*universe*/k {
		_, _ = /*7*/k, /*8*/v
	}
	_ = /*universe*/i
	switch /*=9 var*/z := /*1*/x; /*9*/z {
	case /*9*/z:
		/*=10 var*/x := /*9*/z
		_ = /*10*/x
	default:
		_ = /*1*/x
	}
	_ = /*universe*/z
}

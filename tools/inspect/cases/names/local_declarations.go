package a

func f() {
	var /*=1 var*/a, /*=2 var*/b = /*universe*/a, /*universe*/b
	const (
		/*=3 const*/c = 1
		/*=4 const*/d = /*3*/c + /*universe*/e
		/*=5 const*/e = /*4*/d
	)
	type /*=6 type*/T struct {
		/*none*/next */*6*/T
	}
	_, _, _ = /*1*/a, /*2*/b, /*5*/e
}

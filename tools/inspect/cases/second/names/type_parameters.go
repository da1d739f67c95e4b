package a

type pair[/*=1 type*/K /*universe*/comparable, /*=2 type*/V /*package*/number] struct {
	key   /*1*/K
	value []/*2*/V
}

type number interface {
	~/*universe*/int | ~/*universe*/float64
}

func (/*=5 var*/p *pair[/*=3 type*/K, /*=4 type*/V]) get(/*=6 var*/k /*3*/K) /*4*/V {
	return /*5*/p.find(/*6*/k, /*3*/K(/*6*/k))
}

func first[/*=7 type*/K, /*=8 type*/V /*package*/number](/*=9 var*/p /*package*/pair[/*7*/K, /*8*/V]) /*7*/K {
	type list[/*=10 type*/T /*universe*/any] []/*10*/T
	return /*9*/p.key
}

func outside() {
	_ = /*universe*/K
	_ = /*function*/first[/*universe*/int, /*universe*/float64]
}

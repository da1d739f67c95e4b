package a

import (
	"golang.org/x/sync/errgroup"
	"unsafe"
)

func f(/*=1 var*/x any, /*=2 var*/cancel func()) {
	switch /*none*/errgroup := /*1*/x.(type) {
	/*=3 var*/case */*import golang.org/x/sync/errgroup*/errgroup./*none*/Group:
		_ = /*3*/errgroup
	/*=4 var*/case []/*import golang.org/x/sync/errgroup*/errgroup.Group, func(/*import golang.org/x/sync/errgroup*/errgroup.Group):
		/*4*/errgroup = nil
		{
			/*=6 var*/errgroup := /*4*/errgroup
			_ = /*6*/errgroup
		}
	/*=5 var*/default:
		_ = /*5*/errgroup
	}
	_ = /*import golang.org/x/sync/errgroup*/errgroup.WithContext
	switch /*none*/cancel := /*1*/x.(type) {
	/*=7 var*/case [/*import unsafe*/unsafe.Sizeof(/*2*/cancel)]/*universe*/int:
		_ = /*7*/cancel
	/*=8 var*/default:
		_ = /*8*/cancel
	}
	_ = /*2*/cancel
	switch /*none*/y := /*1*/x.(type) {
	/*=9 var*/case [/*import unsafe*/unsafe.Sizeof(/*universe*/y)]/*universe*/int, /*universe*/y:
		_ = /*9*/y
	}
}

package a

import "io"

type A struct {
	/*package*/B
	*/*import io*/io./*none*/Reader
	/*none*/x, y [/*package*/N]/*universe*/int
	/*none*/f func(/*none*/a /*package*/B) (/*none*/b /*package*/A)
}

type B interface {
	/*package*/C
	/*import io*/io./*none*/Writer
	/*none*/m(/*none*/a /*package*/B)
}

type C = map[/*package*/A]chan<- /*universe*/D

const N = 3

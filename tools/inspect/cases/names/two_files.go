package a

import "io"

func f() {
	/*function*/g(/*import io*/io.EOF, /*package*/v)
	/*universe*/init()
	/*function*/first()
}

func init() {}

func first() {}
// NEXT FILE
package a

var v, _ = /*function*/f, /*universe*/io

func g() {
	/*=1 var*/f := 1
	/*1*/f()
	/*package*/T()
	var _ = /*universe*/_
}

func init() {}

func _() {}

func _() {}

func (t T) g() {}

type T int

var first = 1

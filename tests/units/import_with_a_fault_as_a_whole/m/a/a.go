package a

import "x/b"

func f() {
	b.F()
}

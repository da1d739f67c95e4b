package b

import . "a"

func f() int {
	return Add(1, 2)
}

package a

import . "context"

func f(p Context) {
	_, cancel := WithCancel(p)
	use(cancel)
}

package a

import "context"

func f() {
	var c context.CancelFunc
	use(c)
}

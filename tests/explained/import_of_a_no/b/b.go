package b

import "a"

func g(done bool) {
	a.F(nil, done)
}

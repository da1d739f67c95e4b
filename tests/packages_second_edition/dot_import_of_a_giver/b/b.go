package b

import . "a"

func f() {
	_, _ = With(nil)
}

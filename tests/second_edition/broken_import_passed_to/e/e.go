package e

import _ "a"
import "b"

func f() { b.G() }

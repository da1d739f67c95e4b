package a

import "context"

func f() { return return }

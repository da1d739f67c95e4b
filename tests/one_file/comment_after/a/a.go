package a

import "context"

func f() {} // a comment

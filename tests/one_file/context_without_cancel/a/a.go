package a

import "context"

func f(p context.Context) { a, b := context.WithValue(p) }

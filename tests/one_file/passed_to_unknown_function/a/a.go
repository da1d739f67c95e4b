package a

import "context"

func f(p context.Context) { a, b := context.WithCancel(p); g(b) }

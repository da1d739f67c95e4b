package a

import "context"

func f(p context.Context) {
	_, cancel := context.WithCancel(p)
	keep(cancel)
} //ctxvet:accept LC05 lives as long as the process

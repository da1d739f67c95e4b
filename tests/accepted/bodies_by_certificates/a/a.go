package a

import "context"

func f(p context.Context) {
	_, cancel := context.WithCancel(p)
	use(cancel)
	//ctxvet:accept LC05 the end of the program calls it
}

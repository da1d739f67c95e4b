package a

import "context"

func f(p context.Context) {
	_, cancel := context.WithCancel(p)
	use(cancel)
}	//ctxvet:accept LC05 until the process ends
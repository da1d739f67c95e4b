package d

import "context"

func f(p context.Context) {
	_, cancel := context.WithCancel(p) //ctxvet:accept LC03 another code
	use(cancel)                        //ctxvet:accept LC10,LC03 first
	use(p)                             //ctxvet:accept LC05 second
}

//ctxvet:accept LC04 above
func g(p context.Context) { //ctxvet:accept LC08 own
	_, cancel := context.WithCancel(p)
	use(cancel)
}

//ctxvet:accept LC07 above
func h(p context.Context) { //ctxvet:accept LC03 own
	_, cancel := context.WithCancel(p)
	use(cancel)
}

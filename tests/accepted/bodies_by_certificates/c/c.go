package c

import "context"

//ctxvet:accept LC05 two lines above

func f(p context.Context) {
	_, cancel := context.WithCancel(p)
	use(cancel)
}

//ctxvet:accept LC05 behind one body, and above the next

func g(p context.Context) {
	_, cancel := context.WithCancel(p)
	use(cancel)
} // no line of g follows
//ctxvet:accept LC05 straight above
func h(p context.Context) {
	_, cancel := context.WithCancel(p)
	use(cancel)
}

package a

import "context"

func f(p context.Context) struct{ x int } {
	_, cancel := context.WithCancel(p)
	use(cancel)
	return struct{ x int }{} //ctxvet:accept LC05 of f
}

func g[P interface{ ~string }](p context.Context, s struct{ x [len([2]int{})]int }) (q interface{}) {
	_, cancel := context.WithCancel(p)
	use(cancel)
	return //ctxvet:accept LC05 of g
}

func h(p context.Context) map[string]interface {
	m() struct{}
} {
	_, cancel := context.WithCancel(p)
	use(cancel)
	return nil
} //ctxvet:accept LC05 of h

type mystruct struct{}

func k(p context.Context) mystruct {
	_, cancel := context.WithCancel(p)
	use(cancel)
	return mystruct{}
} //ctxvet:accept LC05 of k

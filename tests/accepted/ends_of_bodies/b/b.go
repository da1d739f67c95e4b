package b

import "context"

func f(p context.Context) {
	_, cancel := context.WithCancel(p)
	use(cancel, "}", '}', `}
\`, '\'', "\"}") // }
	/*/ } */
	use(1 /* } */ / 2)
	return
	/* { */
} //ctxvet:accept LC05 of f

func g(p context.Context) {
	_, cancel := context.WithCancel(p)
	use(cancel, "{", '{', `{`) /* { */ // {
}

//ctxvet:accept LC05 of no body

func h(p context.Context) /* struct */ { /* { */ _, cancel := context.WithCancel(p); use(cancel) } /* } */

var last = 1 //ctxvet:accept LC05 of no body

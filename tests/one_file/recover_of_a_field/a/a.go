package a

type options struct {
	recover bool
}

func f(o options) bool {
	return o.recover
}

package a

type options struct {
	recover bool
}

func f() options {
	return options{recover: true}
}

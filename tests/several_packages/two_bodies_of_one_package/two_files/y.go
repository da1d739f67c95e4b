package a

import "context"

func ff(p context.Context) {
	_, c := context.WithCancel(p)
}

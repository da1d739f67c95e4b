package a

import "x/run"

func f(stop func()) {
	run.Close(stop)
}

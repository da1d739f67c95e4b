package a

import "context"

func f0(p context.Context) {
	_, cancel := context.WithCancel(p)
}

func f1(p context.Context) {
	_, twenty_two_bytes_long_ := context.WithCancel(p)
}

func f2(p context.Context) {
	_, twenty_three_bytes_long := context.WithCancel(p)
}

func f3(p context.Context) {
	_, größer_als_zwanzig_Bytes := context.WithCancel(p)
}

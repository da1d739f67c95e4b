package g

func most[T any](x, y T) T { return x }

package b

var x = = 1

func F() {
}

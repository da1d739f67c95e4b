package a

func use(x any) {
}

package a

func (s server) close() {}

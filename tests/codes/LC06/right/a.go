package a

import "context"

func (s *server) start(p context.Context) {
	s.ctx, s.stop = context.WithCancel(p)
}

func (s *server) Close() {
	s.stop()
}

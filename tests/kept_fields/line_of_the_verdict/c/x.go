package c

import "context"

type S struct {
	ctx          context.Context
	stop, cancel func()
}

func (s *S) Start(p context.Context) {
	s.ctx, s.stop = context.WithCancel(p)
}

func (s *S) Next(p context.Context) {
	_, own := context.WithCancel(p)
	s.cancel = own
}

func (s *S) Close() {
	s.stop()
	s.cancel()
}

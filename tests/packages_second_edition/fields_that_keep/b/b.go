package b

import (
	"a"
	"context"
)

type Server struct {
	task *a.Task
	stop func()
	quit context.CancelFunc
}

func (s *Server) Start(p context.Context) {
	ctx, quit := context.WithCancel(p)
	s.quit = quit
	ctx, s.stop = context.WithTimeout(ctx, second)
	s.task = a.New(ctx)
}

func (s *Server) Close() {
	s.stop()
	s.quit()
}

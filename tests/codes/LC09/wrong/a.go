package a

import "golang.org/x/sync/errgroup"

func f(s *server) error {
	var g errgroup.Group
	s.group = &g
	s.start()
	return g.Wait()
}

package a

import "golang.org/x/sync/errgroup"

func f(g *errgroup.Group) {
	s.group = g
}

// Package errgroup has what the package of this name declares.
package errgroup

type Group struct{}

func (g *Group) Go(f func() error) {}

func (g *Group) Wait() error { return nil }

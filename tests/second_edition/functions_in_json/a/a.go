package a

import (
	"context"

	"golang.org/x/sync/errgroup"
)

const help = `
func help() {
`

func now() int64

var _, stop = context.WithCancel(context.Background())

var hook = func(p context.Context) {
	_, cancel := context.WithCancel(p)
	use(cancel)
}

type Pool[K any] struct{ jobs []K }

func (p *Pool[K]) Run(ctx context.Context) error {
	g := new(errgroup.Group)
	for _, job := range p.jobs {
		if done(job) {
			return nil
		}
		g.Go(func() error { return use(ctx, job) })
	}
	return g.Wait()
}

func Start(p context.Context, b bool) (c interface{ Close() }) {
	_, first := context.WithCancel(p)
	_, second := context.WithCancel(p)
	use(first, second)
	if b {
		return nil
	}
	run(map[string]func(){
		"}": func() { _, third := context.WithCancel(p); use(third) },
	})
	return nil
}

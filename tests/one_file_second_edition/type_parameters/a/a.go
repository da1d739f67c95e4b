package a

import "context"

type pair[K comparable, V any] struct {
	key   K
	value V
}

type number interface {
	~int | ~float64
}

func first[K comparable, V any](p pair[K, V]) K {
	return p.key
}

func (p *pair[K, V]) clear(v V) {
	p.value = v
}

func sum[N number](ns ...N) (s N) {
	for _, n := range ns {
		s += n
	}
	return s
}

func f(p context.Context) {
	ctx, cancel := context.WithCancel(p)
	defer cancel()
	use(ctx, first[string, int](pair[string, int]{}), sum[int](1, 2))
}

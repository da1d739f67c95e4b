package a

import "context"

type T struct {
	context.Context
	a, b map[string][]chan<- func(...int) (x, y T) `tag`
}

func (t *T) m() (err error) {
	for i, c := range t.a {
		switch x := c.(type) {
		case int, *T:
			continue
		default:
			go func() { <-x }()
		}
		select {
		case v, ok := <-c:
			t.b[v] = T{a: nil, b: []int{1, 2: 3}[:i:ok]}
		}
	}
	return
}

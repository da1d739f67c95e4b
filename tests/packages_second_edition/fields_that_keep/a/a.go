package a

import "context"

type Task struct{ stop func() }

func New(p context.Context) *Task {
	ctx, stop := context.WithCancel(p)
	t := &Task{stop: stop}
	go run(ctx)
	return t
}

func (t *Task) Close() { t.stop() }

package c

import "context"

type Task struct{ stop func() }

func New(p context.Context, ready bool) *Task {
	_, cancel := context.WithCancel(p)
	t := &Task{stop: cancel}
	if !ready {
		return nil
	}
	return t
}

func (t *Task) Close() { t.stop() }

package a

import "context"

func f(p context.Context, jobs []int) {
	ctx, cancel := context.WithCancel(p)
	for _, job := range jobs {
		switch job {
		case 0:
			continue
		case 1:
			return
		}
		use(ctx)
	}
	cancel()
}

func g(p context.Context, jobs []int) {
	ctx, cancel := context.WithCancel(p)
	for _, job := range jobs {
		use(ctx, job)
	}
	switch {
	case len(jobs) > 1:
		cancel()
	}
}

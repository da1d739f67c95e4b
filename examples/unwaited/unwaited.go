package unwaited

import (
	"io"
	"os"

	"golang.org/x/sync/errgroup"
)

// CopyAll writes all files to w, side by side.
func CopyAll(paths []string, w io.Writer) error {
	var g errgroup.Group
	for _, path := range paths {
		f, err := os.Open(path)
		if err != nil {
			return err
		}
		g.Go(func() error {
			defer f.Close()
			_, err := io.Copy(w, f)
			return err
		})
	}
	return g.Wait()
}

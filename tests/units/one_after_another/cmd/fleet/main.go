// Fleet only calls what it imports, so it needs none of it to be yes.
package main

import (
	"context"
	"fmt"

	"example.org/fleet/front"
	"example.org/fleet/host"
	"example.org/fleet/native"
	"example.org/fleet/store"
)

func main() {
	ctx, cancel := context.WithCancel(context.Background())
	defer cancel()
	fmt.Println(host.Name(ctx), front.Serve(ctx, "first"), native.Count(ctx, 2), store.Load(ctx, "second"))
}

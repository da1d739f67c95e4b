package a

var x1 []T[int]

var x2 T[a,]

var x3 T[*a]

var x4 T[[4+1]int]

var x5 T[[...]int]

var x6 T[func(a, b int) (c int)]

var x7 T[func()]

var x8 T[func(), struct{ a int }, interface{ m() }]

var x9 T[<-chan int]

var x10 T[<-chan <-chan int]

var x11 T[chan<- int, chan int]

var x12 = T[int]{}

var x13 = T[int, string]{}

func f14(T[a, b])

func f15(T[a])

func f16(T[n] x)

func f17(T[n]x)

func f18(T[n]int)

func f19(T[f(x)] int)

func f20(x T[int])

func f21(x ...T[int])

func f22(x, y T[int]) T[int]

func f23() (T[0] int)

type S24 struct { T[int] }

type S25 struct { T[0] int }

type S26 struct { *T[int] }

type S27 struct { *p.T[int] "x" }

type S28 struct { p.T[int] }

type S29 struct { a, b T[int] }

type I30 interface { T[int] }

type I31 interface { ~int | string }

type I32 interface { int | ~string; m() }

type I33 interface { p.T[int] }

type I34 interface { p.T }

type I35 interface { *T | []int }

type I36 interface { m(T[int]) }

func f37[T any](x T) {}

func f38[T, U any]() {}

func f39[T ~int|string]() {}

func f40[T interface{ ~int }](x T) {}

func (r T[P]) m41() {}

func (T[P]) m42() {}

func (r *T[P, Q]) m43() {}

type A44[P any] struct{}

type A45[P any] = B[P]

type A46 [P]int

type A47 [P * C]int

type A48 [P *C,] int

type A49 [P *C|~D] int

type A50 [P interface{ m() }] int

type A51 [P *[]int] int

type A52 [P (C)] int

type A53 [P ([]int)] int

func f54() { goto L; L: }

func f55() { switch { case true: fallthrough; default: } }

func f56() { x = f[int](3); y := g[int, string](4); h(w < x, y > (z)) }

func f57() { if x == (T[int]{}) { } }

func f58() { for i := range a[i] { } }

func f59() { x, y = a[i], a[i+1] }

func f60() { x.(T[int]) }

type I61 interface { interface{ a() } | int }

type I62 interface { func() | func() int }

type I63 interface { (a) }

func f64[T (U)]() {}

func f65[T any, ]() {}

func f66(a T[int], b ...U[V[W], p.X]) (c T[*int], d error)

func f67(T[[]int])

func f68(T[map[string]int], U)

func f69(T[func(a, b int) (c, d int)])

var x70 [T[5]]int

var x71 [T[5:]]int

var x72 = f[[]int, map[K]V]

var x73 = f[a+b, c]

var x74 = f[a, b,]

var x75 = T[a, b]{1, 2}

var x76 = p.T[a, b]{1, 2}

var x77 = (T[int])(nil)

var x78 = T[int](nil)

var x79 = &T[int]{}

var x80 = []T[int]{{}, {}}

var x81 = map[K[int]]V[int]{}

var x82 = *T[int]{}

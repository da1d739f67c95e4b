package a

type N interface {
	~int
}

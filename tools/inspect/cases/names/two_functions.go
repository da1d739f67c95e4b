package a

func f() {}

func (t T) f() {}

func g() {}
// NEXT FILE
package a

func h() {}

func /*second*/g() {}

func f() {}

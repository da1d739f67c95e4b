a `b

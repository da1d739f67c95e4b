package a
	var c = 'x

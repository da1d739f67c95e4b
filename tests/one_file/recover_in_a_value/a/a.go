package a

var handler = recover

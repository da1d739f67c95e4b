package a

var greeting = "hello"

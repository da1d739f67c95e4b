package a /* b

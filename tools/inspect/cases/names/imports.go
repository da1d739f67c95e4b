package a

import (
	/*none*/context "example.org/other"
	/*none*/errgroup "example.org/group"
	"context"
	y "example.org/v2"
	"example.org/y"
	"example.org/go-yaml"
	_ "example.org/blank"
	"golang.org/x/sync/errgroup"
	"example.org/hidden"
	f "example.org/f"
)

var a = /*import context*/context./*none*/Background()
var b = /*import example.org/v2*/y.V
var c = /*import example.org/go-yaml*/yaml.V
var d = /*universe*/blank.V
var e = /*import golang.org/x/sync/errgroup*/errgroup.V
var g = /*import example.org/f*/f.V
var h = /*universe*/v2.V

func f() {
	_ = /*import example.org/hidden*/hidden.V
	/*=1 var*/hidden := 1
	_ = /*1*/hidden
}

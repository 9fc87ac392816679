module example.org/yulimosar/noise/nettest

go 1.19

require (
	example.org/yulimosar/noise v1.0.0
	golang.org/x/net v0.7.0
)

replace (
	example.org/yulimosar/noise => ../
	golang.org/x/net => /usr/share/gocode/src/golang.org/x/net
)

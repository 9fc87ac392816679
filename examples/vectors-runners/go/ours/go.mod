module example.org/vectors/ours

go 1.19

require (
	example.org/vectors v1.0.0
	example.org/yulimosar/noise v1.0.0
)

require golang.org/x/crypto v0.4.0 // indirect

replace (
	example.org/vectors => ../
	example.org/yulimosar/noise => ../../../../bindings/go
)

// Debian's packages, without a network.
replace (
	github.com/flynn/noise => /usr/share/gocode/src/github.com/flynn/noise
	golang.org/x/crypto => /usr/share/gocode/src/golang.org/x/crypto
	golang.org/x/sys => /usr/share/gocode/src/golang.org/x/sys
)

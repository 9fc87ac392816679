module example.org/libp2p

go 1.20

require (
	example.org/yulimosar/noise v1.0.0
	github.com/flynn/noise v1.0.0
)

require golang.org/x/crypto v0.4.0 // indirect

require golang.org/x/sys v0.3.0 // indirect

// The test's other party, by Debian's packages.
replace (
	example.org/yulimosar/noise => ../../../../bindings/go
	github.com/flynn/noise => /usr/share/gocode/src/github.com/flynn/noise
	golang.org/x/crypto => /usr/share/gocode/src/golang.org/x/crypto
	golang.org/x/sys => /usr/share/gocode/src/golang.org/x/sys
)

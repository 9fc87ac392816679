module example.org/vectors

go 1.19

require github.com/flynn/noise v1.0.0

require (
	golang.org/x/crypto v0.4.0 // indirect
	golang.org/x/sys v0.3.0 // indirect
)

// Debian's packages, without a network.
replace (
	github.com/flynn/noise => /usr/share/gocode/src/github.com/flynn/noise
	golang.org/x/crypto => /usr/share/gocode/src/golang.org/x/crypto
	golang.org/x/sys => /usr/share/gocode/src/golang.org/x/sys
)

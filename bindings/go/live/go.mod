module example.org/yulimosar/noise/live

go 1.19

require (
	example.org/flynnpeer v0.0.0
	example.org/yulimosar/noise v1.0.0
	github.com/flynn/noise v1.0.0
)

require golang.org/x/crypto v0.4.0

require golang.org/x/sys v0.3.0

replace (
	example.org/flynnpeer => ../../../checks/flynnpeer
	example.org/yulimosar/noise => ../
	github.com/flynn/noise => /usr/share/gocode/src/github.com/flynn/noise
	golang.org/x/crypto => /usr/share/gocode/src/golang.org/x/crypto
	golang.org/x/sys => /usr/share/gocode/src/golang.org/x/sys
)

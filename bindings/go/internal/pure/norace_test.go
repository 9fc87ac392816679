//go:build !race

package pure

const isRace = false

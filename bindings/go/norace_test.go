//go:build !race

package noise

const isRace = false

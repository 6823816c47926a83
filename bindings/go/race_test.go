//go:build race

package infer

const isRace = true

// Package aliases has no code of Go. By it `go mod vendor` takes along the header that the binding for Go includes.
package aliases

// Package dist has no code of Go. By it `go mod vendor` takes along the C file that the binding for Go includes.
package dist

// Sum is that of infer.c and infer.h: Go looks into no file that another one includes, but compiles again where this changed.
const Sum = "71c7dd41998cd4c1705bff4d2bbbae9325fd59f79a12a3c16cb8c0b9b949d910"

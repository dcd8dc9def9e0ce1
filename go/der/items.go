package der

// #include <barleypulley/der.h>
import "C"

// Items goes over what stands one behind another: Next reads one, and Item gives it.
type Items[T any] struct {
	left  []byte
	read  func(octets []byte, to *T, fault *C.der_fault) (int, error)
	now   T
	fault C.der_fault
	err   error
}

// Next reads the next one; false where none is left, or where Err says why it is refused.
func (x *Items[T]) Next() bool {
	if len(x.left) == 0 || x.err != nil {
		return false
	}
	count, err := x.read(x.left, &x.now, &x.fault)
	if err != nil {
		x.err = err
		return false
	}
	x.left = x.left[count:]
	return true
}

// Item gives what Next read.
func (x *Items[T]) Item() T { return x.now }

// Err says why one is refused. Of a message that was read none is.
func (x *Items[T]) Err() error { return x.err }

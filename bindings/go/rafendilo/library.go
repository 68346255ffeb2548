package rafendilo

// #cgo rafendilo_installed pkg-config: rafendilo
// #include <stdlib.h>
// #include "rafendilo.h"
import "C"

import (
	"fmt"
	"unsafe"
)

// Version is that of this package.
const Version = "0.3.0"

// abi is RAF_ABI of the header from which this package is written.
const abi = 2

// init ends the program where the library has another ABI than this package needs.
func init() {
	if its := C.raf_abi(); its != abi {
		panic(fmt.Sprintf("rafendilo: the library has the ABI %d (version %d), and this package needs %d",
			its, C.raf_version(), abi))
	}
}

// input is bytes as a call takes them: a copy, with a byte more, so that there is something
// to point to where there are none.
type input []byte

func inputOf[T string | []byte](data T) input {
	return append(make(input, 0, len(data)+1), data...)
}

func (in input) pointer() *C.uint8_t {
	return (*C.uint8_t)(&in[:1][0])
}

func (in input) length() C.size_t {
	return C.size_t(len(in))
}

// digests is fingerprints as a call takes them, copied likewise.
type digests []SHA256

func digestsOf(fingerprints []SHA256) digests {
	return append(make(digests, 0, len(fingerprints)+1), fingerprints...)
}

func (in digests) pointer() *C.raf_sha256 {
	return in[:1][0].pointer()
}

func (in digests) count() C.size_t {
	return C.size_t(len(in))
}

// held is copies in C's memory: what a call is given in a struct may not point to Go's.
type held []unsafe.Pointer

func (memory *held) free() {
	for _, at := range *memory {
		C.free(at)
	}
}

func copied[T string | []byte](memory *held, data T) unsafe.Pointer {
	at := C.malloc(C.size_t(len(data)))
	*memory = append(*memory, at)
	copy(unsafe.Slice((*byte)(at), len(data)), data)
	return at
}

// spanOf is such a copy. A file is better given so, also where it may point to Go's memory: that is
// kept until it is collected.
func spanOf[T string | []byte](memory *held, data T) C.raf_span {
	return C.raf_span{
		bytes: (*C.uint8_t)(copied(memory, data)), length: C.size_t(len(data)),
	}
}

func spansOf[T string | []byte](memory *held, all []T) C.raf_spans {
	// zeros, since Go looks at a pointer before it writes another in its place
	at := (*C.raf_span)(copied(memory, make([]byte, len(all)*C.sizeof_raf_span)))
	for number, items := 0, unsafe.Slice(at, len(all)); number < len(all); number++ {
		items[number] = spanOf(memory, all[number])
	}
	return C.raf_spans{items: at, count: C.size_t(len(all))}
}

func textsOf(memory *held, all []Text) C.raf_texts {
	// zeros, as there
	at := (*C.raf_text)(copied(memory, make([]byte, len(all)*C.sizeof_raf_text)))
	for number, items := 0, unsafe.Slice(at, len(all)); number < len(all); number++ {
		items[number].text = spanOf(memory, []byte(all[number]))
		items[number].is_read = numberOf(all[number] != nil)
	}
	return C.raf_texts{items: at, count: C.size_t(len(all))}
}

func (memory *held) digests(fingerprints []SHA256) C.raf_digests {
	var all []byte
	for _, one := range fingerprints {
		all = append(all, one[:]...)
	}
	at := (*C.raf_sha256)(copied(memory, all))
	return C.raf_digests{items: at, count: C.size_t(len(fingerprints))}
}

func (digest *SHA256) pointer() *C.raf_sha256 {
	return (*C.raf_sha256)(unsafe.Pointer(digest))
}

func (digest *SHA512) pointer() *C.raf_sha512 {
	return (*C.raf_sha512)(unsafe.Pointer(digest))
}

// numberOf is 1 for yes.
func numberOf(is bool) C.uint32_t {
	if is {
		return 1
	}
	return 0
}

// errorOf is nil exactly for RAF_DONE.
func errorOf(status C.uint32_t) error {
	if status == C.RAF_DONE {
		return nil
	}
	return Status(status)
}

// have panics where a call fails that never does: the library is another than the header's.
func have(status C.uint32_t) {
	if err := errorOf(status); err != nil {
		panic(err)
	}
}

// buffer is where a call writes to.
type buffer struct {
	at     *C.uint8_t
	length C.size_t
}

// written is the buffer that a call has written to, which has that length at first and then the one
// that the call says it needs: there its answer has that. It fails with what the call returns.
func written(length int, needed *C.size_t, call func(to buffer) C.uint32_t) ([]byte, error) {
	for {
		data := make([]byte, length, length+1)
		status := call(buffer{input(data).pointer(), C.size_t(length)})
		if status != C.RAF_SHORT_BUFFER || *needed <= C.size_t(length) {
			return data, errorOf(status)
		}
		length = int(*needed)
	}
}

// form is what a call writes to the front of a buffer, and nothing else.
func form(length int, call func(to buffer, length *C.size_t) C.uint32_t) ([]byte, error) {
	var answer C.size_t
	data, err := written(length, &answer, func(to buffer) C.uint32_t { return call(to, &answer) })
	if err != nil {
		return nil, err
	}
	return data[:answer:answer], nil
}

// partOf is that part of the bytes, to which nothing can be appended in place.
func partOf(data []byte, part C.raf_part) []byte {
	end := part.start + part.length
	return data[:len(data):len(data)][part.start:end:end]
}

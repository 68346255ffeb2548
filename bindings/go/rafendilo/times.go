package rafendilo

// #include "rafendilo.h"
import "C"

import "time"

// ReadTime gives the first and the last second that a time may mean, which is YYYYMMDD,
// YYYYMMDDHHMM or YYYYMMDDHHMMSS, alone or before Z or UTC, as in allowed signers and expiry-time
// of authorized_keys. They are the same one if it names its zone; alone, it may be of any.
//
// It fails with ErrFormat where the text is no such time, or one that may be no later than the
// start of 1970, and with ErrText where it is not UTF-8.
func ReadTime(text string) (first, last time.Time, err error) {
	var span C.raf_time_span
	in := inputOf(text)
	err = errorOf(C.raf_read_time(in.pointer(), in.length(), &span))
	if err != nil {
		return first, last, err
	}
	return time.Unix(int64(span.first), 0), time.Unix(int64(span.last), 0), nil
}

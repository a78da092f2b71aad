package bounds

import (
	"errors"
	"io"
	"net"
	"net/http"
	"sync/atomic"
	"time"
)

// slowBody is a request's body with a bound on the time of each read.
type slowBody struct {
	io.ReadCloser
	connection net.Conn
	limit      time.Duration
	isLate     atomic.Bool
}

// IsLate says whether a part of a request's body did not come in time. (The server takes this for a client that is gone.)
func IsLate(request *http.Request) bool {
	body, isSlow := request.Body.(*slowBody)
	return isSlow && body.isLate.Load()
}

func (it *slowBody) Read(room []byte) (int, error) {
	if err := it.connection.SetReadDeadline(time.Now().Add(it.limit)); err != nil {
		return 0, err
	}
	count, err := it.ReadCloser.Read(room)
	if err == nil {
		return count, nil
	}
	var late net.Error
	if errors.As(err, &late) && late.Timeout() {
		it.isLate.Store(true)
		return count, err
	}
	// (the server reads on, for the next request)
	_ = it.connection.SetReadDeadline(time.Time{})
	return count, err
}

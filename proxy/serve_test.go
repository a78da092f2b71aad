package main

import (
	"net"
	"syscall"
	"testing"
	"time"
)

func TestAConnectionEndsWhereNothingIsConfirmed(t *testing.T) {
	listener, err := net.Listen("tcp", "127.0.0.1:0")
	if err != nil {
		t.Fatal(err)
	}
	defer listener.Close()
	connection, err := dialer(7*time.Second).Dial("tcp", listener.Addr().String())
	if err != nil {
		t.Fatal(err)
	}
	defer connection.Close()
	raw, err := connection.(*net.TCPConn).SyscallConn()
	if err != nil {
		t.Fatal(err)
	}
	milliseconds := 0
	if controlled := raw.Control(func(socket uintptr) {
		milliseconds, err = syscall.GetsockoptInt(int(socket), syscall.IPPROTO_TCP, tcpUserTimeout)
	}); controlled != nil || err != nil || milliseconds != 7000 {
		t.Error(controlled, err, milliseconds)
	}
}

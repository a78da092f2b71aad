// The reverse proxy of Go's standard library and nothing else, which mvtgate-proxy is held against: reverse_proxy UPSTREAM. It takes a
// free port of this machine and prints its address, one line.
package main

import (
	"fmt"
	"log"
	"net"
	"net/http"
	"net/http/httputil"
	"net/url"
	"os"
)

func main() {
	upstream, err := url.Parse(os.Args[1])
	if err != nil {
		log.Fatal(err)
	}
	listener, err := net.Listen("tcp", "127.0.0.1:0")
	if err != nil {
		log.Fatal(err)
	}
	fmt.Println("http://" + listener.Addr().String())
	proxy := httputil.NewSingleHostReverseProxy(upstream)
	// (as many connections as are asked by at most, so that none is opened anew)
	proxy.Transport = &http.Transport{MaxIdleConns: 64, MaxIdleConnsPerHost: 64, DisableCompression: true}
	log.Fatal(http.Serve(listener, proxy))
}

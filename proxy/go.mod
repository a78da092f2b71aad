module mvtgate-proxy

go 1.19

require (
	github.com/klauspost/compress v1.15.12
	github.com/prometheus/client_golang v1.14.0
	mvtgate v0.0.0
)

replace mvtgate => ../bindings/go

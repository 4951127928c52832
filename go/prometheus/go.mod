module sf.example/singleflight/prometheus

go 1.19

require (
	github.com/prometheus/client_golang v1.14.0
	sf.example/singleflight v0.0.0
)

replace sf.example/singleflight => ../

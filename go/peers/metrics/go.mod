module sf.example/singleflight/peers/metrics

go 1.19

require (
	github.com/golang/groupcache v0.0.0-20200121045136-8c9f03a8e57e
	github.com/prometheus/client_golang v1.14.0
	sf.example/singleflight/peers v0.0.0
)

replace (
	sf.example/singleflight => ../..
	sf.example/singleflight/peers => ../
)

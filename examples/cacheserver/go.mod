module cacheserver.example

go 1.19

require (
	github.com/golang/groupcache v0.0.0-20200121045136-8c9f03a8e57e
	github.com/golang/protobuf v1.3.5 // indirect
	sf.example/singleflight v0.0.0 // indirect
	sf.example/singleflight/peers v0.0.0
)

replace (
	sf.example/singleflight => ../../go
	sf.example/singleflight/peers => ../../go/peers
)

module judge.example

go 1.19

require (
	github.com/golang/groupcache v0.0.0-20200121045136-8c9f03a8e57e
	github.com/hashicorp/golang-lru v0.5.4
	golang.org/x/sync v0.0.0-20210220032951-036812b2e83c
	sf.example/singleflight v0.0.0
)

replace sf.example/singleflight => ../../go

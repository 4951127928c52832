module sf.example/singleflight/peers/etcd

go 1.19

require (
	go.etcd.io/etcd v0.5.0-alpha.5.0.20200910180754-dd1b699fc489
	sf.example/singleflight/peers v0.0.0
)

replace (
	google.golang.org/grpc => google.golang.org/grpc v1.26.0
	sf.example/singleflight => ../..
	sf.example/singleflight/peers => ../
)

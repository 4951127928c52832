module sf.example/singleflight/otel

go 1.19

require (
	go.opentelemetry.io/otel v1.1.0
	go.opentelemetry.io/otel/sdk v1.1.0
	go.opentelemetry.io/otel/trace v1.1.0
	sf.example/singleflight v0.0.0
)

replace sf.example/singleflight => ../

module rafendilo.example/asker

go 1.19

require rafendilo.example/go v0.0.0

replace rafendilo.example/go => ../../../bindings/go

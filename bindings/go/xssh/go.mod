module rafendilo.example/go/xssh

go 1.19

require (
	golang.org/x/crypto v0.4.0
	rafendilo.example/go v0.0.0
)

require golang.org/x/sys v0.3.0 // indirect

replace rafendilo.example/go => ../

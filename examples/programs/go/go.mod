module programs

go 1.19

require h3qpack v0.2.0

replace h3qpack => ../../../bindings/go

module count

go 1.19

require bpftap v0.0.0

replace bpftap => ../../bindings/go

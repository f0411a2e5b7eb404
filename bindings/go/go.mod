module bpftap

go 1.19

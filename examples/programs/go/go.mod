module example.org/channel

go 1.20

require example.org/yulimosar/noise v1.0.0

replace example.org/yulimosar/noise => ../../../bindings/go

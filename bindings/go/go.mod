module example.org/yulimosar/noise

go 1.20

module example/fixed

go 1.19

module tracehost

go 1.19

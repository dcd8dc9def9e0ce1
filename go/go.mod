module barleypulley/go

go 1.19
